/*
 * Refuses allocations and threads of the program, and counts the octets that it has.
 *
 * Refuses allocations of the program that it is loaded into (LD_PRELOAD): those from number REFUSE_FIRST to number
 * REFUSE_LAST, counted from 1 on once the libraries have begun. What the loader and they took before that is not counted.
 * Or it refuses a thread, that of number REFUSE_THREAD, counted from 1 on too. Or it refuses each allocation while the
 * file REFUSE_WHILE is there.
 * The first refusal makes the file REFUSE_NOTE, so that whoever set the numbers sees whether they were reached.
 *
 * Or each allocation of exactly SLOW_OCTETS octets takes SLOW_TIME milliseconds, and is not refused.
 *
 * A call that asks for no octets is no growth, and neither is a realloc to nothing.
 *
 * Or it refuses nothing, and counts: the file LIVE_OCTETS then has at each moment, as a machine's number of 64 bits, how many
 * octets the program has taken and not given back. Of each block that is all that can be used of it.
 */
#define _GNU_SOURCE
#include <dlfcn.h>
#include <errno.h>
#include <fcntl.h>
#include <malloc.h>
#include <pthread.h>
#include <stdatomic.h>
#include <stddef.h>
#include <stdint.h>
#include <stdlib.h>
#include <sys/mman.h>
#include <time.h>
#include <unistd.h>

extern void *__libc_malloc(size_t size);
extern void *__libc_calloc(size_t count, size_t size);
extern void *__libc_realloc(void *old, size_t size);
extern void *__libc_memalign(size_t alignment, size_t size);
extern void __libc_free(void *old);

static long first, last, thread, slow, slow_time;
static const char *note, *switched;
static atomic_long counted, started;

/* The octets that are live: counted here until the file is there, and nowhere where none is asked for. */
static _Atomic int64_t live_so_far;
static _Atomic int64_t *live = &live_so_far;

static long number_in(const char *name)
{
    const char *text = getenv(name);
    return text ? strtol(text, NULL, 10) : 0;
}

/* Has the octets that are live counted in a file, which is there from now on. */
static void count_in(const char *name)
{
    int file = open(name, O_CREAT | O_RDWR | O_TRUNC | O_CLOEXEC, 0600);
    void *shared = MAP_FAILED;
    if (file >= 0 && ftruncate(file, sizeof *live) == 0) {
        shared = mmap(NULL, sizeof *live, PROT_READ | PROT_WRITE, MAP_SHARED, file, 0);
    }
    if (shared == MAP_FAILED) {
        _exit(127);
    }
    close(file);
    live = shared;
    atomic_store(live, atomic_load(&live_so_far));
}

__attribute__((constructor)) static void begin(void)
{
    const char *name = getenv("LIVE_OCTETS");
    if (name) {
        count_in(name);
    } else {
        live = NULL;
    }
    note = getenv("REFUSE_NOTE");
    switched = getenv("REFUSE_WHILE");
    slow_time = number_in("SLOW_TIME");
    slow = number_in("SLOW_OCTETS");
    thread = number_in("REFUSE_THREAD");
    last = number_in("REFUSE_LAST");
    first = number_in("REFUSE_FIRST");
}

static void make_note(void)
{
    int file = note ? open(note, O_CREAT | O_WRONLY | O_CLOEXEC, 0600) : -1;
    if (file >= 0) {
        close(file);
    }
}

/* Whether the file that has each allocation refused is there. */
static int is_switched_on(void)
{
    int before = errno;
    int is_there = switched && access(switched, F_OK) == 0;
    errno = is_there ? ENOMEM : before;
    return is_there;
}

/* Takes its time, where an allocation of so many octets is a slow one. */
static void pause_for(size_t size)
{
    struct timespec left = { slow_time / 1000, slow_time % 1000 * 1000000 };
    while (slow && size == (size_t)slow && nanosleep(&left, &left) != 0) {
    }
}

/* Counts one allocation of so many octets, and says whether it is refused. */
static int is_refused(size_t size)
{
    pause_for(size);
    if (is_switched_on()) {
        return 1;
    }
    if (first == 0) {
        return 0;
    }
    long number = atomic_fetch_add(&counted, 1) + 1;
    if (number < first || number > last) {
        return 0;
    }
    if (number == first) {
        make_note();
    }
    errno = ENOMEM;
    return 1;
}

/* Counts a block as taken, where there is one, and hands it on. */
static void *taken(void *block)
{
    if (live && block) {
        atomic_fetch_add_explicit(live, (int64_t)malloc_usable_size(block), memory_order_relaxed);
    }
    return block;
}

/* Counts a block as given back. */
static void *given_back(void *block)
{
    if (live && block) {
        atomic_fetch_sub_explicit(live, (int64_t)malloc_usable_size(block), memory_order_relaxed);
    }
    return block;
}

void *malloc(size_t size)
{
    return size && is_refused(size) ? NULL : taken(__libc_malloc(size));
}

void *calloc(size_t count, size_t size)
{
    return count && size && is_refused(count * size) ? NULL : taken(__libc_calloc(count, size));
}

void *realloc(void *old, size_t size)
{
    if (size && is_refused(size)) {
        return NULL;
    }
    void *moved = __libc_realloc(given_back(old), size);
    if (!moved && size) {
        taken(old);
    }
    return taken(moved);
}

void free(void *old)
{
    __libc_free(given_back(old));
}

void *aligned_alloc(size_t alignment, size_t size)
{
    return size && is_refused(size) ? NULL : taken(__libc_memalign(alignment, size));
}

int posix_memalign(void **place, size_t alignment, size_t size)
{
    if (size && is_refused(size)) {
        return ENOMEM;
    }
    *place = taken(__libc_memalign(alignment, size));
    return *place || !size ? 0 : ENOMEM;
}

int pthread_create(pthread_t *made, const pthread_attr_t *how, void *(*work)(void *), void *given)
{
    int (*create)(pthread_t *, const pthread_attr_t *, void *(*)(void *), void *) = dlsym(RTLD_NEXT, "pthread_create");
    if (thread && atomic_fetch_add(&started, 1) + 1 == thread) {
        make_note();
        return EAGAIN;
    }
    return create(made, how, work, given);
}
