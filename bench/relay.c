/*
 * relay: the least that a proxy can do, in one thread, as a yardstick for the others.
 *
 * usage: relay [--single] PORT CLIENT-SECRET HOME-SECRET REALM=PORT ..
 *
 * It serves clients at 127.0.0.1, and the home server of each realm is at 127.0.0.1 too. A right Accounting-Request goes to the
 * home server of its realm with one Proxy-State more, and a right answer goes back without it. A repeat of a request that is
 * out is dropped. Nothing is queued, sent twice, kept for later or written down, and no home server is watched. It answers each
 * Status-Server.
 *
 * It receives and sends up to 64 datagrams by one call of the system. With --single each datagram takes a call of its own, as in a
 * program that has no such calls.
 *
 * It ends by SIGTERM or SIGINT, and prints one line of JSON.
 */
#define _GNU_SOURCE
#include "common.h"
#include "packet.h"

#include <errno.h>
#include <inttypes.h>
#include <netinet/in.h>
#include <poll.h>
#include <stdio.h>
#include <stdlib.h>
#include <string.h>
#include <strings.h>
#include <sys/resource.h>
#include <sys/socket.h>

enum {
	HOMES_MOST = 64,
	SOCKETS = 16, /* before each home server */
	IDENTIFIERS = 256,
	EXCHANGES = SOCKETS * IDENTIFIERS,
	BATCH = 64, /* the most datagrams of one call */
	RECENT = 1 << 14,
	MARK_OCTETS = 8, /* of a Proxy-State's value */
	ROOM = PACKET_MOST + MARK_OCTETS + 2,
	WAIT_MILLISECONDS = 100, /* before the end is looked for */
};

/* A request at a home server, or the last one that was there. */
struct exchange {
	bool is_out;
	struct sockaddr_in client;
	uint8_t identifier; /* of the client */
	uint8_t asked[AUTHENTICATOR_OCTETS]; /* the client's Authenticator */
	uint8_t sent[AUTHENTICATOR_OCTETS]; /* the one under which it went on */
	uint8_t mark[MARK_OCTETS];
};

/* Datagrams that go out of one socket. Their octets stand elsewhere. */
struct outgoing {
	int socket;
	unsigned count;
	struct mmsghdr messages[BATCH];
	struct iovec parts[BATCH];
};

/* Datagrams that came together, with room behind each for one attribute more. */
struct incoming {
	struct mmsghdr messages[BATCH];
	struct iovec parts[BATCH];
	struct sockaddr_in from[BATCH];
	uint8_t octets[BATCH][ROOM];
};

/* A home server. The exchange that is next has the socket and the identifier that were free for the longest time. */
struct home {
	const char *realm;
	size_t realm_octets;
	unsigned next;
	struct exchange *exchanges;
	struct outgoing outgoing;
};

struct counts {
	uint64_t forwarded, returned, repeated, dropped;
};

struct relay {
	const char *client_secret, *home_secret;
	unsigned homes;
	struct home home[HOMES_MOST];
	struct pollfd sockets[1 + HOMES_MOST * SOCKETS]; /* that for the clients, and behind it those of each home server */
	struct exchange *recent[RECENT]; /* the last one of each client's port and identifier, unless another took the place */
	struct incoming incoming;
	struct outgoing answers;
	struct counts counts;
	uint64_t number;
	unsigned most; /* the datagrams of one call */
};

static void flush(struct outgoing *outgoing)
{
	for (unsigned gone = 0; gone < outgoing->count;) {
		int taken = sendmmsg(outgoing->socket, outgoing->messages + gone, outgoing->count - gone, 0);

		/* One that can't be sent is a datagram lost. */
		gone += taken > 0 ? (unsigned)taken : 1;
	}
	outgoing->count = 0;
}

static void put(struct outgoing *outgoing, uint8_t *octets, size_t length, struct sockaddr_in *to)
{
	unsigned place = outgoing->count++;

	outgoing->parts[place] = (struct iovec){ .iov_base = octets, .iov_len = length };
	outgoing->messages[place].msg_hdr = (struct msghdr){
		.msg_name = to,
		.msg_namelen = to ? sizeof *to : 0,
		.msg_iov = outgoing->parts + place,
		.msg_iovlen = 1,
	};
}

/* Has each message name its octets and its sender, which no receive changes. */
static void lay_out(struct incoming *incoming)
{
	for (unsigned i = 0; i < BATCH; i++) {
		incoming->parts[i] = (struct iovec){ .iov_base = incoming->octets[i], .iov_len = PACKET_MOST };
		incoming->messages[i].msg_hdr = (struct msghdr){
			.msg_name = incoming->from + i,
			.msg_namelen = sizeof incoming->from[i],
			.msg_iov = incoming->parts + i,
			.msg_iovlen = 1,
		};
	}
}

/* The datagrams that are there, up to so many; answers how many. */
static unsigned receive(int socket, struct incoming *incoming, unsigned most)
{
	int count = recvmmsg(socket, incoming->messages, most, MSG_DONTWAIT, NULL);

	return count > 0 ? (unsigned)count : 0;
}

/* The home server of the realm behind the last @ of the first User-Name (RFC 7542 section 2.2); NULL where there is none. */
static struct home *home_of(struct relay *relay, const uint8_t *packet, size_t length)
{
	const uint8_t *realm, *name;
	size_t at = PACKET_HEAD, octets;

	while (at < length && packet[at] != USER_NAME)
		at += packet[at + 1];
	if (at >= length)
		return NULL;
	name = packet + at + 2;
	octets = packet[at + 1] - 2u;
	realm = memrchr(name, '@', octets);
	if (realm == NULL)
		return NULL;
	realm++;
	octets -= (size_t)(realm - name);
	for (struct home *home = relay->home; home < relay->home + relay->homes; home++)
		if (home->realm_octets == octets && strncasecmp(home->realm, (const char *)realm, octets) == 0)
			return home;
	return NULL;
}

/* Where the last exchange of this client's port and identifier is noted. */
static struct exchange **recent_of(struct relay *relay, const struct sockaddr_in *client, uint8_t identifier)
{
	uint32_t key = (client->sin_addr.s_addr ^ (uint32_t)client->sin_port << 8 ^ identifier) * UINT32_C(2654435761);

	return relay->recent + key % RECENT;
}

static bool is_repeat(const struct exchange *last, const struct sockaddr_in *client, const uint8_t *request)
{
	return last != NULL && last->is_out && last->identifier == request[1] &&
	       last->client.sin_port == client->sin_port && last->client.sin_addr.s_addr == client->sin_addr.s_addr &&
	       memcmp(last->asked, request + AUTHENTICATOR_AT, sizeof last->asked) == 0;
}

/* The exchange for a new request. What is out under the same socket and identifier is given up. */
static struct exchange *begin(struct relay *relay, struct home *home, const struct sockaddr_in *client, const uint8_t *request)
{
	struct exchange *exchange = home->exchanges + home->next;
	uint64_t number = relay->number++;

	exchange->is_out = true;
	exchange->client = *client;
	exchange->identifier = request[1];
	memcpy(exchange->asked, request + AUTHENTICATOR_AT, sizeof exchange->asked);
	memcpy(exchange->mark, &number, sizeof number);
	home->next = (home->next + 1) % EXCHANGES;
	return exchange;
}

/* Has a request go on to its home server. */
static void forward(struct relay *relay, struct home *home, struct exchange *exchange, uint8_t *request, size_t length)
{
	unsigned place = (unsigned)(exchange - home->exchanges);
	unsigned index = 1 + (unsigned)(home - relay->home) * SOCKETS + place / IDENTIFIERS;
	int socket = relay->sockets[index].fd;

	if (home->outgoing.count > 0 && home->outgoing.socket != socket)
		flush(&home->outgoing);
	home->outgoing.socket = socket;
	request[1] = (uint8_t)(place % IDENTIFIERS);
	length = packet_add(request, length, PROXY_STATE, exchange->mark, sizeof exchange->mark);
	packet_sign(request, length, packet_zeros, relay->home_secret);
	memcpy(exchange->sent, request + AUTHENTICATOR_AT, sizeof exchange->sent);
	put(&home->outgoing, request, length, NULL);
	relay->counts.forwarded++;
}

static void answer_status(struct relay *relay, uint8_t *request, struct sockaddr_in *client)
{
	uint8_t asked[AUTHENTICATOR_OCTETS];

	memcpy(asked, request + AUTHENTICATOR_AT, sizeof asked);
	request[0] = ACCOUNTING_RESPONSE;
	packet_sign(request, PACKET_HEAD, asked, relay->client_secret);
	put(&relay->answers, request, PACKET_HEAD, client);
}

/* Does what is to be done with what came from a client. */
static void take_request(struct relay *relay, uint8_t *octets, size_t count, struct sockaddr_in *client)
{
	size_t length = packet_length(octets, count);
	struct exchange **recent;
	struct home *home;

	if (length > 0 && octets[0] == STATUS_SERVER) {
		answer_status(relay, octets, client);
		return;
	}
	if (length == 0 || length > PACKET_MOST - MARK_OCTETS - 2 || octets[0] != ACCOUNTING_REQUEST ||
	    !packet_is_right(octets, length, packet_zeros, relay->client_secret) ||
	    (home = home_of(relay, octets, length)) == NULL) {
		relay->counts.dropped++;
		return;
	}
	recent = recent_of(relay, client, octets[1]);
	if (is_repeat(*recent, client, octets)) {
		relay->counts.repeated++;
		return;
	}
	*recent = begin(relay, home, client, octets);
	forward(relay, home, *recent, octets, length);
}

/* Takes the mark out of a response where that is its last Proxy-State, and answers the length that is left; 0 where it isn't. */
static size_t without_mark(uint8_t *response, size_t length, const uint8_t *mark)
{
	size_t last = 0, octets = MARK_OCTETS + 2;

	for (size_t at = PACKET_HEAD; at < length; at += response[at + 1])
		if (response[at] == PROXY_STATE)
			last = at;
	if (last == 0 || response[last + 1] != octets || memcmp(response + last + 2, mark, MARK_OCTETS) != 0)
		return 0;
	memmove(response + last, response + last + octets, length - last - octets);
	return length - octets;
}

/* Has a right answer go back to the client. It came to the socket of this index from its home server. */
static void take_response(struct relay *relay, unsigned index, uint8_t *octets, size_t count)
{
	struct home *home = relay->home + (index - 1) / SOCKETS;
	size_t length = packet_length(octets, count);
	struct exchange *exchange;

	if (length == 0 || octets[0] != ACCOUNTING_RESPONSE) {
		relay->counts.dropped++;
		return;
	}
	exchange = home->exchanges + (index - 1) % SOCKETS * IDENTIFIERS + octets[1];
	if (!exchange->is_out || !packet_is_right(octets, length, exchange->sent, relay->home_secret) ||
	    (length = without_mark(octets, length, exchange->mark)) == 0) {
		relay->counts.dropped++;
		return;
	}
	exchange->is_out = false;
	octets[1] = exchange->identifier;
	packet_sign(octets, length, exchange->asked, relay->client_secret);
	put(&relay->answers, octets, length, &exchange->client);
	relay->counts.returned++;
}

/* Receives from the clients once, and has go out what that gives; answers how many datagrams there were. */
static unsigned serve_clients(struct relay *relay)
{
	struct incoming *incoming = &relay->incoming;
	unsigned count = receive(relay->sockets[0].fd, incoming, relay->most);

	for (unsigned i = 0; i < count; i++)
		take_request(relay, incoming->octets[i], incoming->messages[i].msg_len, incoming->from + i);
	for (unsigned i = 0; i < relay->homes; i++)
		flush(&relay->home[i].outgoing);
	flush(&relay->answers);
	return count;
}

/* The same from a home server, at the socket of this index. */
static unsigned serve_home(struct relay *relay, unsigned index)
{
	struct incoming *incoming = &relay->incoming;
	unsigned count = receive(relay->sockets[index].fd, incoming, relay->most);

	for (unsigned i = 0; i < count; i++)
		take_response(relay, index, incoming->octets[i], incoming->messages[i].msg_len);
	flush(&relay->answers);
	return count;
}

/* Serves a socket that has datagrams, until it has none or a batch was served. */
static void serve_socket(struct relay *relay, unsigned index)
{
	unsigned count = relay->most;

	for (unsigned served = 0; served < BATCH && count == relay->most; served += count)
		count = index == 0 ? serve_clients(relay) : serve_home(relay, index);
}

static unsigned sockets_of(const struct relay *relay)
{
	return 1 + relay->homes * SOCKETS;
}

/* Asks for as many descriptors as there may be. */
static void raise_limit(void)
{
	struct rlimit limit;

	if (getrlimit(RLIMIT_NOFILE, &limit) == 0) {
		limit.rlim_cur = limit.rlim_max;
		setrlimit(RLIMIT_NOFILE, &limit);
	}
}

static void serve(struct relay *relay)
{
	if (poll(relay->sockets, sockets_of(relay), WAIT_MILLISECONDS) <= 0)
		return;
	for (unsigned index = 0; index < sockets_of(relay); index++)
		if (relay->sockets[index].revents)
			serve_socket(relay, index);
}

/* A home server more, as REALM=PORT says. */
static void add_home(struct relay *relay, const char *word)
{
	struct home *home = relay->home + relay->homes;
	const char *equals = strchr(word, '=');
	uint16_t port;

	if (equals == NULL || relay->homes == HOMES_MOST) {
		fprintf(stderr, "%s is no REALM=PORT, or one too many\n", word);
		exit(2);
	}
	port = (uint16_t)number_of(equals + 1, 1, UINT16_MAX);
	home->realm = word;
	home->realm_octets = (size_t)(equals - word);
	home->exchanges = calloc(EXCHANGES, sizeof *home->exchanges);
	if (home->exchanges == NULL)
		fail("no memory");
	for (unsigned i = 0; i < SOCKETS; i++)
		relay->sockets[sockets_of(relay) + i] = (struct pollfd){ .fd = connected_socket(port), .events = POLLIN };
	relay->homes++;
}

int main(int count, char **words)
{
	static struct relay relay;
	bool is_single = count > 1 && strcmp(words[1], "--single") == 0;

	count -= is_single;
	words += is_single;
	if (count < 5) {
		fputs("usage: relay [--single] PORT CLIENT-SECRET HOME-SECRET REALM=PORT ..\n", stderr);
		return 2;
	}
	relay.most = is_single ? 1 : BATCH;
	heed_signals();
	raise_limit();
	lay_out(&relay.incoming);
	relay.sockets[0] = (struct pollfd){ .fd = bound_socket((uint16_t)number_of(words[1], 1, UINT16_MAX)), .events = POLLIN };
	relay.answers.socket = relay.sockets[0].fd;
	relay.client_secret = words[2];
	relay.home_secret = words[3];
	for (int i = 4; i < count; i++)
		add_home(&relay, words[i]);
	while (!is_ended())
		serve(&relay);
	printf("{\"forwarded\": %" PRIu64 ", \"returned\": %" PRIu64 ", \"repeated\": %" PRIu64 ", \"dropped\": %" PRIu64
	       ", \"processor_us\": %" PRIu64 "}\n",
	       relay.counts.forwarded, relay.counts.returned, relay.counts.repeated, relay.counts.dropped, processor_time());
	return 0;
}
