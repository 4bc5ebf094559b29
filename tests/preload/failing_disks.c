/*
 * Shows what the program asks of its disk, and lets steps of its files fail.
 *
 * Shows what the program that it is loaded into (LD_PRELOAD) asks of its disk: each sync appends its moment, in milliseconds, as a
 * line to the file SYNC_LOG. Before the program first makes a file whose path begins with TAKEN_PATH, another one is there already,
 * with the text "taken". And it lets steps of the files whose path begins with DISK_PATH fail: so many times the mode can't be set
 * (MODE_FAULTS) and a file can't be looked at (LOOK_FAULTS). A write takes at most WRITE_MOST octets. Once all writes took ROOM octets,
 * so many fail for want of room (WRITE_FAULTS), and the others take all. While the file SYNC_FAILS is there each sync fails, and
 * while WRITE_FAILS is there each write. The next sync behind a write of one octet fails once the file GATE_FAILS is there, which it takes
 * away.
 */
#define _GNU_SOURCE
#include <dlfcn.h>
#include <errno.h>
#include <fcntl.h>
#include <stdarg.h>
#include <stdatomic.h>
#include <stdio.h>
#include <stdlib.h>
#include <string.h>
#include <sys/stat.h>
#include <time.h>
#include <unistd.h>

typedef int (*opening)(const char *, int, ...);

static atomic_int is_taken;
static _Thread_local size_t last;
static atomic_long failed_modes, failed_looks, failed_writes, written;

static long number_in(const char *name)
{
    const char *text = getenv(name);
    return text ? strtol(text, NULL, 10) : 0;
}

/* Whether the file that a variable names is there. */
static int is_there(const char *name)
{
    const char *path = getenv(name);
    return path && access(path, F_OK) == 0;
}

static int is_on_disk(int file)
{
    char name[64], path[4096];
    const char *disk = getenv("DISK_PATH");
    snprintf(name, sizeof name, "/proc/self/fd/%d", file);
    ssize_t count = disk ? readlink(name, path, sizeof path - 1) : -1;
    return count >= 0 && strncmp(path, disk, strlen(disk)) == 0;
}

/* Whether a step fails once more, with this error. */
static int fails(const char *faults, atomic_long *failed, int error)
{
    if (*failed >= number_in(faults)) {
        return 0;
    }
    ++*failed;
    errno = error;
    return 1;
}

int fchmod(int file, mode_t mode)
{
    int (*next)(int, mode_t) = dlsym(RTLD_NEXT, "fchmod");
    return is_on_disk(file) && fails("MODE_FAULTS", &failed_modes, EPERM) ? -1 : next(file, mode);
}

int statx(int file, const char *path, int flags, unsigned int mask, struct statx *found)
{
    int (*next)(int, const char *, int, unsigned int, struct statx *) = dlsym(RTLD_NEXT, "statx");
    int is_looked_at = *path == 0 && is_on_disk(file);
    return is_looked_at && fails("LOOK_FAULTS", &failed_looks, EIO) ? -1 : next(file, path, flags, mask, found);
}

/* How many octets a write takes. */
static size_t taken_of(size_t count)
{
    long most = number_in("WRITE_MOST"), left = number_in("ROOM") - written;
    count = most > 0 && (size_t)most < count ? (size_t)most : count;
    return left > 0 && (size_t)left < count ? (size_t)left : count;
}

ssize_t write(int file, const void *octets, size_t count)
{
    ssize_t (*next)(int, const void *, size_t) = dlsym(RTLD_NEXT, "write");
    if (!is_on_disk(file)) {
        return next(file, octets, count);
    }
    if (is_there("WRITE_FAILS")) {
        errno = ENOSPC;
        return -1;
    }
    if (written == number_in("ROOM") && fails("WRITE_FAULTS", &failed_writes, ENOSPC)) {
        return -1;
    }
    last = count;
    ssize_t taken = next(file, octets, taken_of(count));
    written += taken > 0 ? taken : 0;
    return taken;
}

static void note_sync(void)
{
    const char *log = getenv("SYNC_LOG");
    opening next = (opening)dlsym(RTLD_NEXT, "open");
    int file = log ? next(log, O_WRONLY | O_CREAT | O_APPEND | O_CLOEXEC, 0600) : -1;
    if (file >= 0) {
        struct timespec now;
        clock_gettime(CLOCK_MONOTONIC, &now);
        dprintf(file, "%lld\n", (long long)now.tv_sec * 1000 + now.tv_nsec / 1000000);
        close(file);
    }
}

static int sync_by(const char *call, int file)
{
    int (*next)(int) = dlsym(RTLD_NEXT, call);
    note_sync();
    const char *gate = getenv("GATE_FAILS");
    if (is_there("SYNC_FAILS") || (gate && last == 1 && is_on_disk(file) && unlink(gate) == 0)) {
        errno = EIO;
        return -1;
    }
    return next(file);
}

int fdatasync(int file)
{
    return sync_by("fdatasync", file);
}

int fsync(int file)
{
    return sync_by("fsync", file);
}

static void take(opening next, const char *path)
{
    const char *begin = getenv("TAKEN_PATH");
    if (!begin || strncmp(path, begin, strlen(begin)) != 0 || atomic_exchange(&is_taken, 1)) {
        return;
    }
    int file = next(path, O_WRONLY | O_CREAT | O_EXCL | O_CLOEXEC, 0600);
    if (file >= 0) {
        dprintf(file, "taken");
        close(file);
    }
}

int open(const char *path, int flags, ...)
{
    opening next = (opening)dlsym(RTLD_NEXT, "open");
    if (!(flags & O_CREAT)) {
        return next(path, flags);
    }
    va_list more;
    va_start(more, flags);
    int mode = va_arg(more, int);
    va_end(more);
    take(next, path);
    return next(path, flags, mode);
}
