/*
 * Has each thread of the program begin late, and its calls on sockets and its polls take long.
 *
 * Has each thread of the program that it is loaded into (LD_PRELOAD) begin late: by DELAY_MILLISECONDS. And each call that binds
 * a socket or sets an option of one takes DELAY_OF_SOCKETS milliseconds more, and each poll DELAY_OF_POLLS.
 */
#define _GNU_SOURCE
#include <dlfcn.h>
#include <errno.h>
#include <poll.h>
#include <pthread.h>
#include <stdlib.h>
#include <sys/socket.h>
#include <time.h>

struct start {
    void *(*work)(void *);
    void *given;
};

/* Sleeps for as many milliseconds as a variable says. */
static void wait_for(const char *name)
{
    const char *text = getenv(name);
    long milliseconds = text ? strtol(text, NULL, 10) : 0;
    struct timespec delay = {milliseconds / 1000, milliseconds % 1000 * 1000000};
    if (milliseconds) {
        nanosleep(&delay, NULL);
    }
}

static void *begin_late(void *made)
{
    struct start start = *(struct start *)made;
    free(made);
    wait_for("DELAY_MILLISECONDS");
    return start.work(start.given);
}

int bind(int socket, const struct sockaddr *address, socklen_t length)
{
    int (*call)(int, const struct sockaddr *, socklen_t) = dlsym(RTLD_NEXT, "bind");
    int answer = call(socket, address, length), number = errno;
    wait_for("DELAY_OF_SOCKETS");
    errno = number;
    return answer;
}

int setsockopt(int socket, int level, int name, const void *value, socklen_t length)
{
    int (*call)(int, int, int, const void *, socklen_t) = dlsym(RTLD_NEXT, "setsockopt");
    int answer = call(socket, level, name, value, length), number = errno;
    wait_for("DELAY_OF_SOCKETS");
    errno = number;
    return answer;
}

int poll(struct pollfd *ends, nfds_t count, int most)
{
    int (*call)(struct pollfd *, nfds_t, int) = dlsym(RTLD_NEXT, "poll");
    int answer = call(ends, count, most), number = errno;
    wait_for("DELAY_OF_POLLS");
    errno = number;
    return answer;
}

int pthread_create(pthread_t *made, const pthread_attr_t *how, void *(*work)(void *), void *given)
{
    int (*create)(pthread_t *, const pthread_attr_t *, void *(*)(void *), void *) = dlsym(RTLD_NEXT, "pthread_create");
    struct start *start = malloc(sizeof *start);
    if (!start) {
        return EAGAIN;
    }
    *start = (struct start){work, given};
    int refused = create(made, how, begin_late, start);
    if (refused) {
        free(start);
    }
    return refused;
}
