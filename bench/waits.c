/*
 * waits: what threads take that only wait, as a yardstick for an idle proxy.
 *
 * usage: waits THREADS
 *
 * Each thread waits in epoll_wait, over and over, and does nothing else. A wait ends at the next multiple of 20 milliseconds since
 * the start, as the waits of rad_proxy's idle workers do.
 *
 * It ends by SIGTERM or SIGINT.
 */
#define _GNU_SOURCE
#include "common.h"

#include <errno.h>
#include <pthread.h>
#include <stdio.h>
#include <sys/epoll.h>

enum { WAIT_MILLISECONDS = 20, THREADS_MOST = 1024 };

static uint64_t start;

static void wait_once(int poll)
{
	struct epoll_event event;
	uint64_t passed = (now() - start) / MILLISECOND;

	if (epoll_wait(poll, &event, 1, WAIT_MILLISECONDS - (int)(passed % WAIT_MILLISECONDS)) < 0 && errno != EINTR)
		fail("epoll_wait");
}

static int new_poll(void)
{
	int poll = epoll_create1(EPOLL_CLOEXEC);

	if (poll < 0)
		fail("epoll_create1");
	return poll;
}

static void *wait_always(void *unused)
{
	int poll = new_poll();

	(void)unused;
	while (!is_ended())
		wait_once(poll);
	return NULL;
}

int main(int count, char **words)
{
	pthread_t threads[THREADS_MOST];
	uint64_t wanted, made;

	if (count != 2) {
		fputs("usage: waits THREADS\n", stderr);
		return 2;
	}
	wanted = number_of(words[1], 1, THREADS_MOST);
	heed_signals();
	start = now();
	for (made = 0; made < wanted; made++)
		if ((errno = pthread_create(&threads[made], NULL, wait_always, NULL)))
			fail("pthread_create");
	for (made = 0; made < wanted; made++)
		pthread_join(threads[made], NULL);
	return 0;
}
