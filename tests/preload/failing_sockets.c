/*
 * Has the first receives and sends of each socket fail, and each receive that finds nothing take long.
 *
 * Has the first RECEIVE_FAULTS receives and the first SEND_FAULTS sends of each socket of the program that it is loaded into
 * (LD_PRELOAD) fail. And each receive that finds nothing takes EMPTY_MILLISECONDS.
 */
#define _GNU_SOURCE
#include <dlfcn.h>
#include <errno.h>
#include <stdatomic.h>
#include <stdlib.h>
#include <sys/socket.h>
#include <unistd.h>

#define MOST 1024

static atomic_long receives[MOST], sends[MOST];

static int fails(atomic_long *calls, int socket, const char *name)
{
    const char *text = getenv(name);
    if (!text || socket < 0 || socket >= MOST || atomic_fetch_add(&calls[socket], 1) >= strtol(text, NULL, 10)) {
        return 0;
    }
    errno = ENOBUFS;
    return 1;
}

ssize_t recvfrom(int socket, void *room, size_t size, int flags, struct sockaddr *from, socklen_t *length)
{
    ssize_t (*receive)(int, void *, size_t, int, struct sockaddr *, socklen_t *) = dlsym(RTLD_NEXT, "recvfrom");
    if (fails(receives, socket, "RECEIVE_FAULTS")) {
        return -1;
    }
    ssize_t count = receive(socket, room, size, flags, from, length);
    const char *wait = getenv("EMPTY_MILLISECONDS");
    if (count < 0 && errno == EAGAIN && wait) {
        usleep(1000 * (useconds_t)strtol(wait, NULL, 10));
        errno = EAGAIN;
    }
    return count;
}

ssize_t sendto(int socket, const void *octets, size_t size, int flags, const struct sockaddr *to, socklen_t length)
{
    ssize_t (*send)(int, const void *, size_t, int, const struct sockaddr *, socklen_t) = dlsym(RTLD_NEXT, "sendto");
    return fails(sends, socket, "SEND_FAULTS") ? -1 : send(socket, octets, size, flags, to, length);
}
