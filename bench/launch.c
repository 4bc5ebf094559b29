/*
 * launch: how long a proxy takes from its exec until it answers.
 *
 * usage: launch PORT DATAGRAM SECONDS WORD ..
 *
 * Starts the program that the words name, with a pipe as standard input that stays open, and sends the datagram, given as
 * hexadecimal digits, to 127.0.0.1 at PORT again and again until something comes back. Then it ends the program and prints
 * one line of JSON: the microseconds to the first octet of standard output, or null, and to the answer. After so many
 * seconds without an answer it ends with status 1.
 */
#define _GNU_SOURCE
#include "common.h"

#include <errno.h>
#include <fcntl.h>
#include <inttypes.h>
#include <poll.h>
#include <signal.h>
#include <stdio.h>
#include <string.h>
#include <sys/prctl.h>
#include <sys/socket.h>
#include <sys/wait.h>
#include <time.h>
#include <unistd.h>

enum { DATAGRAM_MOST = 256, ENDING_MILLISECONDS = 5000 };

#define BETWEEN (200 * MICROSECOND)

struct launched {
	pid_t process;
	int input, output;
	uint64_t start;
};

static size_t datagram_of(const char *digits, uint8_t datagram[DATAGRAM_MOST])
{
	size_t count = 0;
	unsigned octet;

	for (; count < DATAGRAM_MOST && sscanf(digits, "%2x", &octet) == 1; digits += 2)
		datagram[count++] = (uint8_t)octet;
	return count;
}

static struct launched launch(char **words)
{
	int input[2], output[2], nowhere = open("/dev/null", O_WRONLY | O_CLOEXEC);
	struct launched launched;

	if (nowhere < 0 || pipe2(input, O_CLOEXEC) != 0 || pipe2(output, O_CLOEXEC) != 0)
		fail("no pipe");
	fcntl(output[0], F_SETFL, O_NONBLOCK);
	launched = (struct launched){ .input = input[1], .output = output[0], .start = now() };
	launched.process = fork();
	if (launched.process < 0)
		fail("no process");
	if (launched.process == 0) {
		prctl(PR_SET_PDEATHSIG, SIGKILL);
		dup2(input[0], STDIN_FILENO);
		dup2(output[1], STDOUT_FILENO);
		dup2(nowhere, STDERR_FILENO);
		execvp(words[0], words);
		_exit(127);
	}
	close(input[0]);
	close(output[1]);
	close(nowhere);
	return launched;
}

/* Ends its input, asks it to end, and at last ends it. */
static void end(const struct launched *launched)
{
	struct timespec while_ = { .tv_nsec = MILLISECOND };

	close(launched->input);
	kill(launched->process, SIGTERM);
	for (int i = 0; i < ENDING_MILLISECONDS; i++) {
		if (waitpid(launched->process, NULL, WNOHANG) != 0)
			return;
		nanosleep(&while_, NULL);
	}
	kill(launched->process, SIGKILL);
	waitpid(launched->process, NULL, 0);
}

int main(int count, char **words)
{
	struct timespec between = { .tv_nsec = BETWEEN };
	uint8_t datagram[DATAGRAM_MOST], answer[DATAGRAM_MOST];
	uint64_t until, printed = 0, answered = 0;
	struct launched launched;
	size_t length;
	int asking;

	if (count < 5) {
		fputs("usage: launch PORT DATAGRAM SECONDS WORD ..\n", stderr);
		return 2;
	}
	heed_signals();
	prctl(PR_SET_TIMERSLACK, 1L);
	asking = connected_socket((uint16_t)number_of(words[1], 1, UINT16_MAX));
	length = datagram_of(words[2], datagram);
	launched = launch(words + 4);
	until = launched.start + number_of(words[3], 1, 3600) * SECOND;
	while (answered == 0 && now() < until && !is_ended()) {
		send(asking, datagram, length, 0);
		nanosleep(&between, NULL);
		if (printed == 0 && read(launched.output, answer, sizeof answer) > 0)
			printed = now() - launched.start;
		if (recv(asking, answer, sizeof answer, 0) > 0)
			answered = now() - launched.start;
	}
	end(&launched);
	if (answered == 0)
		return 1;
	fputs("{\"printed_us\": ", stdout);
	if (printed > 0)
		printf("%" PRIu64, printed / MICROSECOND);
	else
		fputs("null", stdout);
	printf(", \"answered_us\": %" PRIu64 "}\n", answered / MICROSECOND);
	return 0;
}
