/*
 * Counts how often the program calls the system.
 *
 * Counts how often the program that it is loaded into (LD_PRELOAD) calls the system. The file WAKES_FILE has as machine's numbers of 64
 * bits: the receives, the wakes of a worker by another one, which write 8 octets, the sends of a thread that received no datagram since
 * its last send, the datagrams received, the sends, the most datagrams that a thread received from one send to the next, and of the waits
 * that end without an event how many are to end in each millisecond of twenty: a busy machine lets them end later. Each receive that
 * finds a datagram takes RECEIVE_MILLISECONDS.
 */
#define _GNU_SOURCE
#include <dlfcn.h>
#include <fcntl.h>
#include <stdatomic.h>
#include <stdint.h>
#include <stdlib.h>
#include <sys/epoll.h>
#include <sys/mman.h>
#include <sys/socket.h>
#include <time.h>
#include <unistd.h>

#define APART 20

static struct {
    _Atomic int64_t receives, wakes, together, received, sends, longest, ends[APART];
} *kept;
static _Thread_local int has_sent;
static _Thread_local int64_t in_a_row;
static useconds_t slow;

__attribute__((constructor)) static void begin(void)
{
    const char *name = getenv("WAKES_FILE"), *text = getenv("RECEIVE_MILLISECONDS");
    int file = name ? open(name, O_CREAT | O_RDWR | O_TRUNC | O_CLOEXEC, 0600) : -1;
    void *shared = MAP_FAILED;
    if (file >= 0 && ftruncate(file, sizeof *kept) == 0) {
        shared = mmap(NULL, sizeof *kept, PROT_READ | PROT_WRITE, MAP_SHARED, file, 0);
    }
    if (shared == MAP_FAILED) {
        _exit(127);
    }
    close(file);
    slow = 1000 * (useconds_t)strtol(text ? text : "0", NULL, 10);
    kept = shared;
}

ssize_t recvfrom(int socket, void *room, size_t size, int flags, struct sockaddr *from, socklen_t *length)
{
    ssize_t (*receive)(int, void *, size_t, int, struct sockaddr *, socklen_t *) = dlsym(RTLD_NEXT, "recvfrom");
    atomic_fetch_add(&kept->receives, 1);
    ssize_t count = receive(socket, room, size, flags, from, length);
    if (count >= 0) {
        has_sent = 0;
        in_a_row++;
        atomic_fetch_add(&kept->received, 1);
        if (slow) {
            usleep(slow);
        }
    }
    return count;
}

/* Ends a row of receives of this thread. */
static void keep_longest(void)
{
    int64_t longest = atomic_load(&kept->longest);
    while (longest < in_a_row && !atomic_compare_exchange_weak(&kept->longest, &longest, in_a_row)) {
    }
    in_a_row = 0;
}

ssize_t sendto(int socket, const void *octets, size_t size, int flags, const struct sockaddr *to, socklen_t length)
{
    ssize_t (*send)(int, const void *, size_t, int, const struct sockaddr *, socklen_t) = dlsym(RTLD_NEXT, "sendto");
    if (has_sent) {
        atomic_fetch_add(&kept->together, 1);
    }
    has_sent = 1;
    atomic_fetch_add(&kept->sends, 1);
    keep_longest();
    return send(socket, octets, size, flags, to, length);
}

ssize_t write(int file, const void *octets, size_t size)
{
    ssize_t (*give)(int, const void *, size_t) = dlsym(RTLD_NEXT, "write");
    if (kept && size == sizeof(uint64_t)) {
        atomic_fetch_add(&kept->wakes, 1);
    }
    return give(file, octets, size);
}

int epoll_wait(int poll, struct epoll_event *events, int room, int milliseconds)
{
    int (*await)(int, struct epoll_event *, int, int) = dlsym(RTLD_NEXT, "epoll_wait");
    struct timespec now;
    clock_gettime(CLOCK_MONOTONIC, &now);
    int count = await(poll, events, room, milliseconds);
    if (count == 0) {
        atomic_fetch_add(&kept->ends[(now.tv_nsec / 1000000 + milliseconds) % APART], 1);
    }
    return count;
}
