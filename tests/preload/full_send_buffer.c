/*
 * Has the sends of one port meet a slow network, whose send buffer fills.
 *
 * Has the sends from one port (FROM_PORT) of the program that it is loaded into (LD_PRELOAD) meet a network as it may be. Each takes
 * SEND_MICROSECONDS. And what goes to one of the ports from NARROW_FIRST to NARROW_LAST leaves through a slow interface, which takes
 * NARROW_MILLISECONDS for each datagram: until then it is in the send buffer, which has room for NARROW_ROOM of them. A send that finds
 * no room fails with EAGAIN, wherever it goes. With WIDE_AFTER the interface is quick so many milliseconds after its first datagram; the
 * first WIDE_REFUSED sends to it from then on fail with EPERM.
 */
#define _GNU_SOURCE
#include <arpa/inet.h>
#include <dlfcn.h>
#include <errno.h>
#include <pthread.h>
#include <stdint.h>
#include <stdlib.h>
#include <sys/socket.h>
#include <time.h>
#include <unistd.h>

static pthread_mutex_t lock = PTHREAD_MUTEX_INITIALIZER;
static int64_t in_buffer, last_left, first, refused;

static long number_of(const char *name)
{
    const char *text = getenv(name);
    return text ? strtol(text, NULL, 10) : 0;
}

static int64_t microseconds(void)
{
    struct timespec now;
    clock_gettime(CLOCK_MONOTONIC, &now);
    return now.tv_sec * 1000000LL + now.tv_nsec / 1000;
}

/* Takes from the buffer what has left by now. */
static void leave(int64_t each)
{
    int64_t now = microseconds(), left = each > 0 ? (now - last_left) / each : in_buffer;
    if (in_buffer == 0 || left >= in_buffer) {
        in_buffer = 0;
        last_left = now;
    } else {
        in_buffer -= left;
        last_left += left * each;
    }
}

/* Why a datagram to this port is not sent, or 0: it is in the buffer from now on if its interface is slow. */
static int fault_at(int port)
{
    int fault = 0, is_slow = port >= number_of("NARROW_FIRST") && port <= number_of("NARROW_LAST");
    pthread_mutex_lock(&lock);
    leave(1000 * number_of("NARROW_MILLISECONDS"));
    if (number_of("WIDE_AFTER") && first && microseconds() - first > 1000 * number_of("WIDE_AFTER")) {
        in_buffer = 0;
        fault = is_slow && refused++ < number_of("WIDE_REFUSED") ? EPERM : 0;
    }
    fault = fault ? fault : in_buffer < number_of("NARROW_ROOM") ? 0 : EAGAIN;
    if (!fault && is_slow) {
        in_buffer++;
        first = first ? first : microseconds();
    }
    pthread_mutex_unlock(&lock);
    return fault;
}

ssize_t sendto(int socket, const void *octets, size_t size, int flags, const struct sockaddr *to, socklen_t length)
{
    ssize_t (*send)(int, const void *, size_t, int, const struct sockaddr *, socklen_t) = dlsym(RTLD_NEXT, "sendto");
    struct sockaddr_in from = { 0 };
    socklen_t room = sizeof from;
    if (getsockname(socket, (struct sockaddr *)&from, &room) == 0 && ntohs(from.sin_port) == number_of("FROM_PORT")) {
        usleep((useconds_t)number_of("SEND_MICROSECONDS"));
        int fault = number_of("NARROW_ROOM") ? fault_at(ntohs(((const struct sockaddr_in *)to)->sin_port)) : 0;
        if (fault) {
            errno = fault;
            return -1;
        }
    }
    return send(socket, octets, size, flags, to, length);
}
