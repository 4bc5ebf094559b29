/*
 * generator: a NAS that sends Accounting-Requests to 127.0.0.1 and takes the time of each verified answer.
 *
 * Either so many requests are out at once, each answer making room for the next one (--window), or so many begin each
 * second, whatever the answers do (--rate). A request is sent once. It counts as unanswered after --timeout milliseconds,
 * or where its send failed, and its time is then taken to be --timeout. It sends until --seconds have passed or --count are
 * sent, waits for what is out, and prints one line of JSON; with --by-second, a line for each second before it.
 */
#define _GNU_SOURCE
#include "common.h"
#include "histogram.h"
#include "packet.h"

#include <getopt.h>
#include <inttypes.h>
#include <poll.h>
#include <stdio.h>
#include <stdlib.h>
#include <string.h>
#include <sys/prctl.h>
#include <sys/socket.h>

enum {
	IDENTIFIERS = 256,
	SOCKETS_MOST = 64,
	REALMS_MOST = 64,
	/* A User-Name, an Acct-Status-Type and an Acct-Session-Id. */
	REQUEST_LEAST = 60,
	REQUEST_MOST = 4000,
	ATTRIBUTE_MOST = 255,
};

/* The longest wait before the end is looked for. */
#define WAIT_MOST (100 * MILLISECOND)

/* What is asked for. */
struct plan {
	uint16_t port;
	const char *secret;
	uint64_t window, rate; /* one of the two is 0 */
	uint64_t count, seconds, timeout, sockets, realms, octets, series;
	bool by_second;
};

/* A request that is out, or the place for one: a socket and an identifier. */
struct place {
	struct place *before, *after;
	uint64_t sent;
	unsigned socket;
	uint8_t identifier;
	bool is_out;
	uint8_t authenticator[AUTHENTICATOR_OCTETS];
};

/* Places in a circle, through one that stands for the circle alone. */
struct circle {
	struct place head;
};

struct counts {
	uint64_t answered, unanswered, wrong, late;
};

struct run {
	struct plan plan;
	struct pollfd sockets[SOCKETS_MOST];
	struct place *places;
	struct circle free, out; /* in the order in which they were freed, and sent */
	uint64_t start, end, last_answer, second;
	uint64_t sent, skipped, outstanding;
	struct counts counts, counted_before; /* so far, and before this second */
	struct histogram all, of_second, lateness;
};

static void circle_start(struct circle *circle)
{
	circle->head.before = circle->head.after = &circle->head;
}

static struct place *circle_first(struct circle *circle)
{
	return circle->head.after == &circle->head ? NULL : circle->head.after;
}

static void circle_leave(struct place *place)
{
	place->before->after = place->after;
	place->after->before = place->before;
}

static void circle_join(struct circle *circle, struct place *place)
{
	place->before = circle->head.before;
	place->after = &circle->head;
	place->before->after = place;
	circle->head.before = place;
}

static void move(struct place *place, struct circle *to)
{
	circle_leave(place);
	circle_join(to, place);
}

/* Fills a request up to the length that is asked for. */
static size_t fill_up(uint8_t *packet, size_t length, size_t octets)
{
	static const char text[ATTRIBUTE_MOST] = { 0 };

	while (length < octets) {
		size_t part = octets - length;

		if (part > ATTRIBUTE_MOST)
			part = part - ATTRIBUTE_MOST < 3 ? ATTRIBUTE_MOST - 3 : ATTRIBUTE_MOST;
		length = packet_add(packet, length, CONNECT_INFO, text, part - 2);
	}
	return length;
}

/* Makes the request of this number, and answers its length. */
static size_t make_request(const struct plan *plan, uint64_t number, uint8_t identifier, uint8_t *packet)
{
	static const uint8_t start[4] = { 0, 0, 0, 1 };
	char name[15], session[17];
	size_t length = PACKET_HEAD;

	snprintf(name, sizeof name, "user@r%02u.bench", (unsigned)(number % plan->realms) % 100);
	snprintf(session, sizeof session, "%08" PRIx32 "%08" PRIx32, (uint32_t)plan->series, (uint32_t)number);
	packet[0] = ACCOUNTING_REQUEST;
	packet[1] = identifier;
	length = packet_add(packet, length, USER_NAME, name, sizeof name - 1);
	length = packet_add(packet, length, ACCT_STATUS_TYPE, start, sizeof start);
	length = packet_add(packet, length, ACCT_SESSION_ID, session, sizeof session - 1);
	length = fill_up(packet, length, plan->octets);
	packet_sign(packet, length, packet_zeros, plan->secret);
	return length;
}

static void count_time(struct run *run, uint64_t time)
{
	histogram_add(&run->all, time);
	histogram_add(&run->of_second, time);
}

static void count_unanswered(struct run *run)
{
	run->counts.unanswered++;
	count_time(run, run->plan.timeout * MILLISECOND);
}

static void send_one(struct run *run, struct place *place)
{
	uint8_t packet[PACKET_MOST];
	size_t length = make_request(&run->plan, run->sent, place->identifier, packet);

	memcpy(place->authenticator, packet + AUTHENTICATOR_AT, sizeof place->authenticator);
	place->sent = now();
	run->sent++;
	if (send(run->sockets[place->socket].fd, packet, length, 0) < 0) {
		count_unanswered(run);
		move(place, &run->free);
		return;
	}
	place->is_out = true;
	run->outstanding++;
	move(place, &run->out);
}

static bool may_begin(const struct run *run, uint64_t moment)
{
	return !is_ended() && moment < run->end && run->sent + run->skipped < run->plan.count;
}

/* When a request begins by the rate. */
static uint64_t due(const struct run *run, uint64_t number)
{
	return run->start + number / run->plan.rate * SECOND + number % run->plan.rate * SECOND / run->plan.rate;
}

/* Begins requests up to the window, or to a send that failed. */
static void fill_window(struct run *run)
{
	struct place *place;

	while (run->outstanding < run->plan.window && may_begin(run, now()) &&
	       (place = circle_first(&run->free)) != NULL) {
		send_one(run, place);
		if (!place->is_out)
			return;
	}
}

/* Begins what is due by now; what finds no place is skipped. */
static void keep_rate(struct run *run)
{
	uint64_t moment = now(), begins;

	while (may_begin(run, moment) && (begins = due(run, run->sent + run->skipped)) <= moment) {
		struct place *place = circle_first(&run->free);

		if (place == NULL) {
			run->skipped++;
			continue;
		}
		send_one(run, place);
		histogram_add(&run->lateness, place->sent - begins);
	}
}

static void free_place(struct run *run, struct place *place)
{
	place->is_out = false;
	run->outstanding--;
	move(place, &run->free);
}

static void take_answer(struct run *run, unsigned socket, const uint8_t *packet, size_t count)
{
	size_t length = packet_length(packet, count);
	struct place *place;
	uint64_t moment = now();

	if (length == 0 || packet[0] != ACCOUNTING_RESPONSE) {
		run->counts.wrong++;
		return;
	}
	place = run->places + socket * IDENTIFIERS + packet[1];
	if (!place->is_out) {
		run->counts.late++;
		return;
	}
	if (!packet_is_right(packet, length, place->authenticator, run->plan.secret)) {
		run->counts.wrong++;
		return;
	}
	count_time(run, moment - place->sent);
	run->counts.answered++;
	run->last_answer = moment;
	free_place(run, place);
}

/* Takes what has come, and of each socket no more than it can have had out. */
static void take_answers(struct run *run)
{
	uint8_t packet[PACKET_MOST];

	for (unsigned i = 0; i < run->plan.sockets; i++)
		for (int left = run->sockets[i].revents ? IDENTIFIERS : 0; left > 0; left--) {
			ssize_t got = recv(run->sockets[i].fd, packet, sizeof packet, 0);

			if (got < 0)
				break;
			take_answer(run, i, packet, (size_t)got);
		}
}

/* Gives up what has been out too long. */
static void give_up(struct run *run)
{
	uint64_t moment = now();
	struct place *place;

	while ((place = circle_first(&run->out)) != NULL && place->sent + run->plan.timeout * MILLISECOND <= moment) {
		count_unanswered(run);
		free_place(run, place);
	}
}

static void wait_for_answers(struct run *run)
{
	uint64_t moment = now(), until = moment + WAIT_MOST;
	struct timespec span = { 0 };

	if (run->plan.rate > 0 && may_begin(run, moment)) {
		uint64_t next = due(run, run->sent + run->skipped);

		until = next < until ? next : until;
	}
	if (until > moment)
		span.tv_nsec = (long)(until - moment);
	if (ppoll(run->sockets, run->plan.sockets, &span, NULL) <= 0)
		for (unsigned i = 0; i < run->plan.sockets; i++)
			run->sockets[i].revents = 0;
}

static double microseconds(uint64_t time)
{
	return (double)time / MICROSECOND;
}

static void print_times(const struct histogram *histogram)
{
	printf("\"p50_us\": %.1f, \"p99_us\": %.1f, \"p999_us\": %.1f, \"greatest_us\": %.1f",
	       microseconds(histogram_at(histogram, 500)), microseconds(histogram_at(histogram, 990)),
	       microseconds(histogram_at(histogram, 999)), microseconds(histogram->greatest));
}

/* Tells of each second that is over, if that is asked for. */
static void tell_seconds(struct run *run)
{
	while (run->plan.by_second && now() >= run->start + (run->second + 1) * SECOND) {
		run->second++;
		printf("{\"second\": %" PRIu64 ", \"answered\": %" PRIu64 ", \"unanswered\": %" PRIu64 ", ", run->second,
		       run->counts.answered - run->counted_before.answered,
		       run->counts.unanswered - run->counted_before.unanswered);
		print_times(&run->of_second);
		puts("}");
		fflush(stdout);
		run->counted_before = run->counts;
		histogram_clear(&run->of_second);
	}
}

static void tell_all(const struct run *run)
{
	uint64_t passed = run->last_answer - run->start;

	printf("{\"sent\": %" PRIu64 ", \"skipped\": %" PRIu64 ", \"answered\": %" PRIu64 ", \"unanswered\": %" PRIu64
	       ", \"wrong\": %" PRIu64 ", \"late\": %" PRIu64 ", ",
	       run->sent, run->skipped, run->counts.answered, run->counts.unanswered, run->counts.wrong, run->counts.late);
	printf("\"seconds\": %.6f, \"per_second\": %.1f, ", (double)passed / SECOND,
	       passed > 0 ? (double)run->counts.answered * SECOND / (double)passed : 0);
	print_times(&run->all);
	printf(", \"behind_us\": %.1f, \"processor_us\": %" PRIu64 "}\n", microseconds(histogram_at(&run->lateness, 999)),
	       processor_time());
}

static void start(struct run *run)
{
	uint64_t sockets = run->plan.sockets;

	run->places = calloc(sockets * IDENTIFIERS, sizeof *run->places);
	if (run->places == NULL)
		fail("no memory");
	circle_start(&run->free);
	circle_start(&run->out);
	for (unsigned i = 0; i < sockets; i++)
		run->sockets[i] = (struct pollfd){ .fd = connected_socket(run->plan.port), .events = POLLIN };
	for (unsigned i = 0; i < sockets * IDENTIFIERS; i++) {
		struct place *place = run->places + i % sockets * IDENTIFIERS + i / sockets;

		place->socket = i % (unsigned)sockets;
		place->identifier = (uint8_t)(i / sockets);
		circle_join(&run->free, place);
	}
	run->start = run->last_answer = now();
	run->end = run->start + run->plan.seconds * SECOND;
}

static void go(struct run *run)
{
	while (run->outstanding > 0 || may_begin(run, now())) {
		if (run->plan.rate > 0)
			keep_rate(run);
		else
			fill_window(run);
		wait_for_answers(run);
		take_answers(run);
		give_up(run);
		tell_seconds(run);
		if (is_ended())
			break;
	}
}

static void explain(void)
{
	fputs("usage: generator --port P --secret S (--window N | --rate N) --count N --seconds N\n"
	      "                 [--timeout MS] [--sockets N] [--realms N] [--octets N] [--series N] [--by-second]\n",
	      stderr);
	exit(2);
}

static struct plan read_plan(int count, char **words)
{
	static const struct option options[] = {
		{ "port", required_argument, NULL, 'p' },    { "secret", required_argument, NULL, 's' },
		{ "window", required_argument, NULL, 'w' },  { "rate", required_argument, NULL, 'r' },
		{ "count", required_argument, NULL, 'c' },   { "seconds", required_argument, NULL, 't' },
		{ "timeout", required_argument, NULL, 'o' }, { "sockets", required_argument, NULL, 'k' },
		{ "realms", required_argument, NULL, 'm' },  { "octets", required_argument, NULL, 'l' },
		{ "series", required_argument, NULL, 'n' },  { "by-second", no_argument, NULL, 'b' },
		{ 0 },
	};
	struct plan plan = { .timeout = 1000, .sockets = 1, .realms = 1, .octets = REQUEST_LEAST };
	int option;

	while ((option = getopt_long(count, words, "", options, NULL)) != -1)
		switch (option) {
		case 'p':
			plan.port = (uint16_t)number_of(optarg, 1, UINT16_MAX);
			break;
		case 's':
			plan.secret = optarg;
			break;
		case 'w':
			plan.window = number_of(optarg, 1, SOCKETS_MOST * IDENTIFIERS);
			break;
		case 'r':
			plan.rate = number_of(optarg, 1, 1000000);
			break;
		case 'c':
			plan.count = number_of(optarg, 1, UINT32_MAX);
			break;
		case 't':
			plan.seconds = number_of(optarg, 1, 3600);
			break;
		case 'o':
			plan.timeout = number_of(optarg, 1, 60000);
			break;
		case 'k':
			plan.sockets = number_of(optarg, 1, SOCKETS_MOST);
			break;
		case 'm':
			plan.realms = number_of(optarg, 1, REALMS_MOST);
			break;
		case 'l':
			plan.octets = number_of(optarg, REQUEST_LEAST, REQUEST_MOST);
			break;
		case 'n':
			plan.series = number_of(optarg, 0, UINT32_MAX);
			break;
		case 'b':
			plan.by_second = true;
			break;
		default:
			explain();
		}
	if (optind < count || plan.port == 0 || plan.secret == NULL || plan.count == 0 || plan.seconds == 0 ||
	    (plan.window == 0) == (plan.rate == 0) || plan.window > plan.sockets * IDENTIFIERS ||
	    (plan.octets > REQUEST_LEAST && plan.octets < REQUEST_LEAST + 3))
		explain();
	return plan;
}

int main(int count, char **words)
{
	static struct run run;

	run.plan = read_plan(count, words);
	heed_signals();
	prctl(PR_SET_TIMERSLACK, 1L);
	start(&run);
	go(&run);
	tell_all(&run);
	return 0;
}
