#define _GNU_SOURCE
#include "common.h"

#include <arpa/inet.h>
#include <errno.h>
#include <fcntl.h>
#include <netinet/in.h>
#include <signal.h>
#include <stdio.h>
#include <stdlib.h>
#include <string.h>
#include <sys/prctl.h>
#include <sys/resource.h>
#include <sys/socket.h>
#include <time.h>

enum { BUFFER_OCTETS = 1 << 20 };

static volatile sig_atomic_t was_ended;

void fail(const char *what)
{
	fprintf(stderr, "%s%s%s\n", what, errno ? ": " : "", errno ? strerror(errno) : "");
	exit(2);
}

uint64_t number_of(const char *text, uint64_t least, uint64_t most)
{
	char *end;
	unsigned long long number;

	errno = 0;
	number = strtoull(text, &end, 10);
	if (errno || end == text || *end != '\0' || *text == '-' || number < least || number > most) {
		fprintf(stderr, "%s is no number of %llu to %llu\n", text, (unsigned long long)least,
			(unsigned long long)most);
		exit(2);
	}
	return number;
}

uint64_t now(void)
{
	struct timespec time;

	clock_gettime(CLOCK_MONOTONIC, &time);
	return (uint64_t)time.tv_sec * SECOND + (uint64_t)time.tv_nsec;
}

uint64_t processor_time(void)
{
	struct rusage usage;

	getrusage(RUSAGE_SELF, &usage);
	return ((uint64_t)usage.ru_utime.tv_sec + (uint64_t)usage.ru_stime.tv_sec) * 1000000 +
	       (uint64_t)usage.ru_utime.tv_usec + (uint64_t)usage.ru_stime.tv_usec;
}

static void note_end(int signal)
{
	(void)signal;
	was_ended = 1;
}

void heed_signals(void)
{
	struct sigaction action = { .sa_handler = note_end };

	sigaction(SIGINT, &action, NULL);
	sigaction(SIGTERM, &action, NULL);
	prctl(PR_SET_PDEATHSIG, SIGTERM);
}

bool is_ended(void)
{
	return was_ended != 0;
}

static struct sockaddr_in local(uint16_t port)
{
	struct sockaddr_in address = { .sin_family = AF_INET, .sin_port = htons(port) };

	address.sin_addr.s_addr = htonl(INADDR_LOOPBACK);
	return address;
}

int bound_socket(uint16_t port)
{
	struct sockaddr_in address = local(port);
	int octets = BUFFER_OCTETS, made = socket(AF_INET, SOCK_DGRAM | SOCK_CLOEXEC, 0);

	if (made < 0 || bind(made, (struct sockaddr *)&address, sizeof address) != 0)
		fail("no socket");
	setsockopt(made, SOL_SOCKET, SO_RCVBUF, &octets, sizeof octets);
	setsockopt(made, SOL_SOCKET, SO_SNDBUF, &octets, sizeof octets);
	return made;
}

int connected_socket(uint16_t port)
{
	struct sockaddr_in address = local(port);
	int made = bound_socket(0);

	if (connect(made, (struct sockaddr *)&address, sizeof address) != 0 || fcntl(made, F_SETFL, O_NONBLOCK) != 0)
		fail("no socket");
	return made;
}
