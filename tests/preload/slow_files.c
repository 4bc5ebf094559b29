/*
 * Makes files slow, and sends to one port, as a busy disk or a server that is away would.
 *
 * Makes files slow for the program that it is loaded into (LD_PRELOAD), as a busy disk or a server that is away would: each
 * write to standard error takes SLOW_LOG milliseconds. Of a file whose path begins with SLOW_PATH each opening takes SLOW_OPEN
 * milliseconds, each write SLOW_WRITE, and each sync SLOW_SYNC, if SLOW_WHILE is not set or the file that it names exists. And each
 * datagram to the UDP port SLOW_PORT is sent SLOW_SEND milliseconds late.
 */
#define _GNU_SOURCE
#include <arpa/inet.h>
#include <dlfcn.h>
#include <fcntl.h>
#include <stdarg.h>
#include <stdio.h>
#include <stdlib.h>
#include <string.h>
#include <sys/socket.h>
#include <time.h>
#include <unistd.h>

static long number_in(const char *name)
{
    const char *text = getenv(name);
    return text ? strtol(text, NULL, 10) : 0;
}

static void pause_for(long milliseconds)
{
    struct timespec left = {milliseconds / 1000, milliseconds % 1000 * 1000000};
    while (nanosleep(&left, &left) != 0) {
    }
}

static int is_slow(const char *path)
{
    const char *slow = getenv("SLOW_PATH"), *mark = getenv("SLOW_WHILE");
    return slow && (!mark || access(mark, F_OK) == 0) && strncmp(path, slow, strlen(slow)) == 0;
}

static int is_slow_file(int file)
{
    char name[64], path[4096];
    snprintf(name, sizeof name, "/proc/self/fd/%d", file);
    ssize_t count = readlink(name, path, sizeof path - 1);
    if (count < 0) {
        return 0;
    }
    path[count] = 0;
    return is_slow(path);
}

static void pause_at(const char *path)
{
    if (is_slow(path)) {
        pause_for(number_in("SLOW_OPEN"));
    }
}

ssize_t write(int file, const void *octets, size_t count)
{
    ssize_t (*next)(int, const void *, size_t) = dlsym(RTLD_NEXT, "write");
    if (file == STDERR_FILENO) {
        pause_for(number_in("SLOW_LOG"));
    } else if (getenv("SLOW_WRITE") && is_slow_file(file)) {
        pause_for(number_in("SLOW_WRITE"));
    }
    return next(file, octets, count);
}

int open(const char *path, int flags, ...)
{
    int (*next)(const char *, int, ...) = dlsym(RTLD_NEXT, "open");
    va_list more;
    va_start(more, flags);
    mode_t mode = va_arg(more, mode_t);
    va_end(more);
    pause_at(path);
    return next(path, flags, mode);
}

/* Where a `long` has 64 bits, the two are one. */
int open64(const char *path, int flags, ...) __attribute__((alias("open")));

ssize_t sendto(int socket, const void *octets, size_t size, int flags, const struct sockaddr *to, socklen_t length)
{
    ssize_t (*next)(int, const void *, size_t, int, const struct sockaddr *, socklen_t) = dlsym(RTLD_NEXT, "sendto");
    if (to && to->sa_family == AF_INET && ntohs(((const struct sockaddr_in *)to)->sin_port) == number_in("SLOW_PORT")) {
        pause_for(number_in("SLOW_SEND"));
    }
    return next(socket, octets, size, flags, to, length);
}

int fdatasync(int file)
{
    int (*next)(int) = dlsym(RTLD_NEXT, "fdatasync");
    if (is_slow_file(file)) {
        pause_for(number_in("SLOW_SYNC"));
    }
    return next(file);
}

int fsync(int file)
{
    int (*next)(int) = dlsym(RTLD_NEXT, "fsync");
    if (is_slow_file(file)) {
        pause_for(number_in("SLOW_SYNC"));
    }
    return next(file);
}
