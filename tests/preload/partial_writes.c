/*
 * Has each write to standard error take only a part, or fail.
 *
 * Has each write to standard error of the program that it is loaded into (LD_PRELOAD) take at most as many octets as the next number
 * of PARTS says, where 0 fails it. A write behind the last number takes all.
 */
#define _GNU_SOURCE
#include <dlfcn.h>
#include <errno.h>
#include <stdatomic.h>
#include <stdlib.h>
#include <string.h>
#include <unistd.h>

static atomic_int writes;

/* The number of PARTS at this place, counted from 0; -1 if there is none. */
static long part_at(int place)
{
    const char *text = getenv("PARTS");
    for (; text && place > 0; place--) {
        text = strchr(text, ',');
        text = text ? text + 1 : NULL;
    }
    return text && *text ? strtol(text, NULL, 10) : -1;
}

ssize_t write(int file, const void *octets, size_t count)
{
    ssize_t (*next)(int, const void *, size_t) = dlsym(RTLD_NEXT, "write");
    long most = file == STDERR_FILENO ? part_at(atomic_fetch_add(&writes, 1)) : -1;
    if (most == 0) {
        errno = ENOSPC;
        return -1;
    }
    return next(file, octets, most > 0 && (size_t)most < count ? (size_t)most : count);
}
