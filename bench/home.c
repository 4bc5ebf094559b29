/*
 * home: a home server. It answers each right Accounting-Request and each Status-Server at once, with the Proxy-States that
 * came, and never writes anything down, so that it takes less time than any proxy before it.
 *
 * usage: home PORT SECRET SECONDS
 *
 * It ends after so many seconds, or by SIGTERM or SIGINT, and prints one line of JSON.
 */
#define _GNU_SOURCE
#include "common.h"
#include "packet.h"

#include <errno.h>
#include <inttypes.h>
#include <netinet/in.h>
#include <stdio.h>
#include <string.h>
#include <sys/socket.h>
#include <sys/time.h>

/* How long a receive waits at most before the end is looked for. */
enum { WAIT_MICROSECONDS = 100000 };

struct counts {
	uint64_t answered, dropped, probed;
};

/* Puts a request's Proxy-States into the response, in their order, and answers the response's length. */
static size_t give_back(const uint8_t *request, size_t length, uint8_t *response)
{
	size_t made = PACKET_HEAD;

	for (size_t at = PACKET_HEAD; at < length; at += request[at + 1])
		if (request[at] == PROXY_STATE)
			made = packet_add(response, made, PROXY_STATE, request + at + 2, request[at + 1] - 2u);
	return made;
}

/* Makes the response to what came, and answers its length; 0 where there is none. */
static size_t respond(const uint8_t *request, size_t count, uint8_t *response, const char *secret, struct counts *counts)
{
	size_t length = packet_length(request, count), made = PACKET_HEAD;

	if (length == 0) {
		counts->dropped++;
		return 0;
	}
	if (request[0] == STATUS_SERVER) {
		counts->probed++;
	} else if (request[0] == ACCOUNTING_REQUEST && packet_is_right(request, length, packet_zeros, secret)) {
		made = give_back(request, length, response);
		counts->answered++;
	} else {
		counts->dropped++;
		return 0;
	}
	response[0] = ACCOUNTING_RESPONSE;
	response[1] = request[1];
	packet_sign(response, made, request + AUTHENTICATOR_AT, secret);
	return made;
}

/* Receives once and answers. */
static void serve(int listening, const char *secret, struct counts *counts)
{
	static uint8_t request[PACKET_MOST], response[PACKET_MOST];
	struct sockaddr_in from;
	socklen_t size = sizeof from;
	ssize_t got = recvfrom(listening, request, sizeof request, 0, (struct sockaddr *)&from, &size);
	size_t made;

	if (got < 0) {
		if (errno != EAGAIN && errno != EINTR)
			fail("receive");
		return;
	}
	made = respond(request, (size_t)got, response, secret, counts);
	if (made > 0)
		sendto(listening, response, made, 0, (struct sockaddr *)&from, size);
}

int main(int count, char **words)
{
	struct timeval wait = { .tv_usec = WAIT_MICROSECONDS };
	struct counts counts = { 0 };
	uint64_t end;
	int listening;

	if (count != 4) {
		fputs("usage: home PORT SECRET SECONDS\n", stderr);
		return 2;
	}
	heed_signals();
	listening = bound_socket((uint16_t)number_of(words[1], 1, UINT16_MAX));
	end = now() + number_of(words[3], 1, 86400) * SECOND;
	setsockopt(listening, SOL_SOCKET, SO_RCVTIMEO, &wait, sizeof wait);
	while (!is_ended() && now() < end)
		serve(listening, words[2], &counts);
	printf("{\"answered\": %" PRIu64 ", \"dropped\": %" PRIu64 ", \"probed\": %" PRIu64
	       ", \"processor_us\": %" PRIu64 "}\n",
	       counts.answered, counts.dropped, counts.probed, processor_time());
	return 0;
}
