/*
 * Has one call of the program fail, once, and counts the calls.
 *
 * Counts the calls of each kind below of the program that it is loaded into (LD_PRELOAD), from its start on and of all threads, in the
 * file FAIL_COUNTS: for each kind, in their order, a machine's number of 64 bits. The call of number FAIL_AT, counted from 1 on, of the
 * kind FAIL_KIND fails with the error FAIL_ERROR, and nothing is done then; where that is 0, the program is killed before it. Allocations
 * are counted once the libraries have begun.
 */
#define _GNU_SOURCE
#include <dirent.h>
#include <dlfcn.h>
#include <errno.h>
#include <fcntl.h>
#include <poll.h>
#include <pthread.h>
#include <signal.h>
#include <stdarg.h>
#include <stdatomic.h>
#include <stdint.h>
#include <stdlib.h>
#include <string.h>
#include <sys/epoll.h>
#include <sys/eventfd.h>
#include <sys/file.h>
#include <sys/mman.h>
#include <sys/socket.h>
#include <sys/stat.h>
#include <sys/syscall.h>
#include <time.h>
#include <unistd.h>

extern void *__libc_malloc(size_t size);
extern void *__libc_calloc(size_t count, size_t size);
extern void *__libc_realloc(void *old, size_t size);
extern void *__libc_memalign(size_t alignment, size_t size);

enum kind {
    SENDTO, RECVFROM, READ, WRITE, POLL, EPOLL_WAIT, OPEN, FDATASYNC, RENAME, UNLINK, GETDENTS64, STATX, CLOCK_GETTIME, BIND, MALLOC,
    REALLOC, FSYNC, LSEEK, FLOCK, FCHMOD, MKDIR, SOCKET, SETSOCKOPT, GETSOCKOPT, GETSOCKNAME, IOCTL, EPOLL_CREATE, EPOLL_CTL, EVENTFD,
    GETENTROPY, PTHREAD_CREATE, KINDS
};

static const char *const NAMES[KINDS] = {
    "sendto", "recvfrom", "read", "write", "poll", "epoll_wait", "open", "fdatasync", "rename", "unlink", "getdents64", "statx",
    "clock_gettime", "bind", "malloc", "realloc", "fsync", "lseek", "flock", "fchmod", "mkdir", "socket", "setsockopt", "getsockopt",
    "getsockname", "ioctl", "epoll_create", "epoll_ctl", "eventfd", "getentropy", "pthread_create",
};

static _Atomic int64_t *counts;
static enum kind failing = KINDS;
static int64_t at;
static int error;

static long number_in(const char *name)
{
    const char *text = getenv(name);
    return text ? strtol(text, NULL, 10) : 0;
}

__attribute__((constructor)) static void begin(void)
{
    const char *name = getenv("FAIL_COUNTS"), *kind = getenv("FAIL_KIND");
    at = number_in("FAIL_AT");
    error = (int)number_in("FAIL_ERROR");
    for (int each = 0; kind && each < KINDS; each++) {
        failing = strcmp(kind, NAMES[each]) == 0 ? (enum kind)each : failing;
    }
    int file = name ? (int)syscall(SYS_openat, AT_FDCWD, name, O_CREAT | O_RDWR | O_TRUNC | O_CLOEXEC, 0600) : -1;
    void *shared = MAP_FAILED;
    if (file >= 0 && ftruncate(file, KINDS * sizeof *counts) == 0) {
        shared = mmap(NULL, KINDS * sizeof *counts, PROT_READ | PROT_WRITE, MAP_SHARED, file, 0);
    }
    if (shared == MAP_FAILED) {
        _exit(127);
    }
    close(file);
    counts = shared;
}

/* Counts a call, and tells whether it is to fail: then its error is set. */
static int fails(enum kind kind)
{
    if (!counts || atomic_fetch_add(&counts[kind], 1) + 1 != at || kind != failing) {
        return 0;
    }
    if (error == 0) {
        kill(getpid(), SIGKILL);
    }
    errno = error;
    return 1;
}

ssize_t sendto(int socket, const void *octets, size_t size, int flags, const struct sockaddr *to, socklen_t length)
{
    ssize_t (*next)(int, const void *, size_t, int, const struct sockaddr *, socklen_t) = dlsym(RTLD_NEXT, "sendto");
    return fails(SENDTO) ? -1 : next(socket, octets, size, flags, to, length);
}

ssize_t recvfrom(int socket, void *room, size_t size, int flags, struct sockaddr *from, socklen_t *length)
{
    ssize_t (*next)(int, void *, size_t, int, struct sockaddr *, socklen_t *) = dlsym(RTLD_NEXT, "recvfrom");
    return fails(RECVFROM) ? -1 : next(socket, room, size, flags, from, length);
}

ssize_t read(int file, void *room, size_t size)
{
    ssize_t (*next)(int, void *, size_t) = dlsym(RTLD_NEXT, "read");
    return fails(READ) ? -1 : next(file, room, size);
}

ssize_t write(int file, const void *octets, size_t size)
{
    ssize_t (*next)(int, const void *, size_t) = dlsym(RTLD_NEXT, "write");
    return fails(WRITE) ? -1 : next(file, octets, size);
}

int poll(struct pollfd *files, nfds_t count, int milliseconds)
{
    int (*next)(struct pollfd *, nfds_t, int) = dlsym(RTLD_NEXT, "poll");
    return fails(POLL) ? -1 : next(files, count, milliseconds);
}

int epoll_wait(int file, struct epoll_event *events, int most, int milliseconds)
{
    int (*next)(int, struct epoll_event *, int, int) = dlsym(RTLD_NEXT, "epoll_wait");
    return fails(EPOLL_WAIT) ? -1 : next(file, events, most, milliseconds);
}

static int mode_in(int flags, va_list more)
{
    return flags & (O_CREAT | O_TMPFILE) ? va_arg(more, int) : 0;
}

int open(const char *path, int flags, ...)
{
    int (*next)(const char *, int, ...) = dlsym(RTLD_NEXT, "open");
    va_list more;
    va_start(more, flags);
    int mode = mode_in(flags, more);
    va_end(more);
    return fails(OPEN) ? -1 : next(path, flags, mode);
}

int openat(int folder, const char *path, int flags, ...)
{
    int (*next)(int, const char *, int, ...) = dlsym(RTLD_NEXT, "openat");
    va_list more;
    va_start(more, flags);
    int mode = mode_in(flags, more);
    va_end(more);
    return fails(OPEN) ? -1 : next(folder, path, flags, mode);
}

int fdatasync(int file)
{
    int (*next)(int) = dlsym(RTLD_NEXT, "fdatasync");
    return fails(FDATASYNC) ? -1 : next(file);
}

int rename(const char *from, const char *to)
{
    int (*next)(const char *, const char *) = dlsym(RTLD_NEXT, "rename");
    return fails(RENAME) ? -1 : next(from, to);
}

int unlink(const char *path)
{
    int (*next)(const char *) = dlsym(RTLD_NEXT, "unlink");
    return fails(UNLINK) ? -1 : next(path);
}

ssize_t getdents64(int file, void *room, size_t size)
{
    ssize_t (*next)(int, void *, size_t) = dlsym(RTLD_NEXT, "getdents64");
    return fails(GETDENTS64) ? -1 : next(file, room, size);
}

int statx(int file, const char *path, int flags, unsigned int mask, struct statx *found)
{
    int (*next)(int, const char *, int, unsigned int, struct statx *) = dlsym(RTLD_NEXT, "statx");
    return fails(STATX) ? -1 : next(file, path, flags, mask, found);
}

int clock_gettime(clockid_t clock, struct timespec *moment)
{
    if (fails(CLOCK_GETTIME)) {
        return -1;
    }
    long status = syscall(SYS_clock_gettime, clock, moment);
    return (int)status;
}

int bind(int socket, const struct sockaddr *to, socklen_t length)
{
    int (*next)(int, const struct sockaddr *, socklen_t) = dlsym(RTLD_NEXT, "bind");
    return fails(BIND) ? -1 : next(socket, to, length);
}

void *malloc(size_t size)
{
    return fails(MALLOC) ? NULL : __libc_malloc(size);
}

void *calloc(size_t count, size_t size)
{
    return fails(MALLOC) ? NULL : __libc_calloc(count, size);
}

void *aligned_alloc(size_t alignment, size_t size)
{
    return fails(MALLOC) ? NULL : __libc_memalign(alignment, size);
}

int posix_memalign(void **place, size_t alignment, size_t size)
{
    if (fails(MALLOC)) {
        return ENOMEM;
    }
    *place = __libc_memalign(alignment, size);
    return *place ? 0 : ENOMEM;
}

void *realloc(void *old, size_t size)
{
    return size && fails(REALLOC) ? NULL : __libc_realloc(old, size);
}

int fsync(int file)
{
    int (*next)(int) = dlsym(RTLD_NEXT, "fsync");
    return fails(FSYNC) ? -1 : next(file);
}

off_t lseek(int file, off_t place, int from)
{
    off_t (*next)(int, off_t, int) = dlsym(RTLD_NEXT, "lseek");
    return fails(LSEEK) ? -1 : next(file, place, from);
}

int flock(int file, int operation)
{
    int (*next)(int, int) = dlsym(RTLD_NEXT, "flock");
    return fails(FLOCK) ? -1 : next(file, operation);
}

int fchmod(int file, mode_t mode)
{
    int (*next)(int, mode_t) = dlsym(RTLD_NEXT, "fchmod");
    return fails(FCHMOD) ? -1 : next(file, mode);
}

int mkdir(const char *path, mode_t mode)
{
    int (*next)(const char *, mode_t) = dlsym(RTLD_NEXT, "mkdir");
    return fails(MKDIR) ? -1 : next(path, mode);
}

int socket(int family, int type, int protocol)
{
    int (*next)(int, int, int) = dlsym(RTLD_NEXT, "socket");
    return fails(SOCKET) ? -1 : next(family, type, protocol);
}

int setsockopt(int socket, int level, int name, const void *value, socklen_t size)
{
    int (*next)(int, int, int, const void *, socklen_t) = dlsym(RTLD_NEXT, "setsockopt");
    return fails(SETSOCKOPT) ? -1 : next(socket, level, name, value, size);
}

int getsockopt(int socket, int level, int name, void *value, socklen_t *size)
{
    int (*next)(int, int, int, void *, socklen_t *) = dlsym(RTLD_NEXT, "getsockopt");
    return fails(GETSOCKOPT) ? -1 : next(socket, level, name, value, size);
}

int getsockname(int socket, struct sockaddr *name, socklen_t *size)
{
    int (*next)(int, struct sockaddr *, socklen_t *) = dlsym(RTLD_NEXT, "getsockname");
    return fails(GETSOCKNAME) ? -1 : next(socket, name, size);
}

int ioctl(int file, unsigned long request, ...)
{
    int (*next)(int, unsigned long, ...) = dlsym(RTLD_NEXT, "ioctl");
    va_list more;
    va_start(more, request);
    void *value = va_arg(more, void *);
    va_end(more);
    return fails(IOCTL) ? -1 : next(file, request, value);
}

int epoll_create1(int flags)
{
    int (*next)(int) = dlsym(RTLD_NEXT, "epoll_create1");
    return fails(EPOLL_CREATE) ? -1 : next(flags);
}

int epoll_ctl(int poll, int operation, int file, struct epoll_event *event)
{
    int (*next)(int, int, int, struct epoll_event *) = dlsym(RTLD_NEXT, "epoll_ctl");
    return fails(EPOLL_CTL) ? -1 : next(poll, operation, file, event);
}

int eventfd(unsigned int value, int flags)
{
    int (*next)(unsigned int, int) = dlsym(RTLD_NEXT, "eventfd");
    return fails(EVENTFD) ? -1 : next(value, flags);
}

int getentropy(void *room, size_t size)
{
    int (*next)(void *, size_t) = dlsym(RTLD_NEXT, "getentropy");
    return fails(GETENTROPY) ? -1 : next(room, size);
}

/* Gives the error, and does not set it. */
int pthread_create(pthread_t *thread, const pthread_attr_t *attributes, void *(*work)(void *), void *its)
{
    int (*next)(pthread_t *, const pthread_attr_t *, void *(*)(void *), void *) = dlsym(RTLD_NEXT, "pthread_create");
    return fails(PTHREAD_CREATE) ? error : next(thread, attributes, work, its);
}
