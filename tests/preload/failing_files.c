/*
 * Has steps of the files below a folder fail.
 *
 * Has steps of the program that it is loaded into (LD_PRELOAD) fail, of files whose path begins with DISK_PATH: those of the kind
 * STEP_KIND (write, sync or unlink) from number STEP_FROM on, counted from 1, and STEP_COUNT of them. They fail with the error
 * STEP_ERROR; where it is 0, a write takes half of its octets instead.
 */
#define _GNU_SOURCE
#include <dlfcn.h>
#include <errno.h>
#include <stdio.h>
#include <stdlib.h>
#include <string.h>
#include <unistd.h>

static long steps;

static long number_in(const char *name)
{
    const char *text = getenv(name);
    return text ? strtol(text, NULL, 10) : 0;
}

static int is_below(const char *path)
{
    const char *disk = getenv("DISK_PATH");
    return disk && strncmp(path, disk, strlen(disk)) == 0;
}

static int is_on_disk(int file)
{
    char name[64], path[4096];
    snprintf(name, sizeof name, "/proc/self/fd/%d", file);
    ssize_t count = readlink(name, path, sizeof path - 1);
    path[count < 0 ? 0 : count] = 0;
    return is_below(path);
}

/* Whether this step, one of the files' that is of this kind, is one that fails. */
static int fails(const char *kind)
{
    const char *failing = getenv("STEP_KIND");
    if (!failing || strcmp(failing, kind) != 0) {
        return 0;
    }
    steps++;
    errno = (int)number_in("STEP_ERROR");
    return steps >= number_in("STEP_FROM") && steps < number_in("STEP_FROM") + number_in("STEP_COUNT");
}

ssize_t write(int file, const void *octets, size_t count)
{
    ssize_t (*next)(int, const void *, size_t) = dlsym(RTLD_NEXT, "write");
    if (!is_on_disk(file) || !fails("write")) {
        return next(file, octets, count);
    }
    return errno ? -1 : next(file, octets, count > 1 ? count / 2 : count);
}

int fdatasync(int file)
{
    int (*next)(int) = dlsym(RTLD_NEXT, "fdatasync");
    return is_on_disk(file) && fails("sync") ? -1 : next(file);
}

int fsync(int file)
{
    int (*next)(int) = dlsym(RTLD_NEXT, "fsync");
    return is_on_disk(file) && fails("sync") ? -1 : next(file);
}

int unlink(const char *path)
{
    int (*next)(const char *) = dlsym(RTLD_NEXT, "unlink");
    return is_below(path) && fails("unlink") ? -1 : next(path);
}
