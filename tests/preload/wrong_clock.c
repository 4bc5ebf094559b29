/*
 * Has the clock of the program fail, or tell another time of day.
 *
 * Has the clock of the program that it is loaded into (LD_PRELOAD) fail, after CLOCK_CALLS calls that do not. Or one call of its first thread
 * fails, the next one once the file CLOCK_FAILS is there, which it takes away; or all fail while the file CLOCK_OUT is there. The time of day is
 * CLOCK_AHEAD seconds later, or as many as the file CLOCK_FILE says at that moment, or always CLOCK_AT milliseconds after 1970. The
 * clock that never goes back is ahead by the milliseconds that the file CLOCK_MOVED says, or goes CLOCK_SLOW times as slowly from its first
 * call on.
 */
#define _GNU_SOURCE
#include <errno.h>
#include <fcntl.h>
#include <stdatomic.h>
#include <stdlib.h>
#include <sys/syscall.h>
#include <time.h>
#include <unistd.h>

static atomic_long calls;

static long read_number(const char *path)
{
    char text[32] = { 0 };
    int file = open(path, O_RDONLY | O_CLOEXEC);
    if (file < 0 || read(file, text, sizeof text - 1) < 0) {
        abort();
    }
    close(file);
    return strtol(text, NULL, 10);
}

static void set_day(struct timespec *moment)
{
    const char *ahead = getenv("CLOCK_AHEAD"), *path = getenv("CLOCK_FILE"), *at = getenv("CLOCK_AT");
    moment->tv_sec += ahead ? strtol(ahead, NULL, 10) : 0;
    moment->tv_sec += path ? read_number(path) : 0;
    if (at) {
        long long milliseconds = strtoll(at, NULL, 10);
        moment->tv_sec = milliseconds / 1000;
        moment->tv_nsec = milliseconds % 1000 * 1000000;
    }
}

static void move_on(struct timespec *moment)
{
    const char *path = getenv("CLOCK_MOVED");
    long moved = path ? read_number(path) : 0;
    moment->tv_nsec += moved % 1000 * 1000000;
    moment->tv_sec += moved / 1000 + moment->tv_nsec / 1000000000;
    moment->tv_nsec %= 1000000000;
}

static void slow_down(struct timespec *moment)
{
    static atomic_llong first;
    const char *slow = getenv("CLOCK_SLOW");
    long long now = moment->tv_sec * 1000000000LL + moment->tv_nsec, none = 0;
    if (slow) {
        atomic_compare_exchange_strong(&first, &none, now);
        now = atomic_load(&first) + (now - atomic_load(&first)) / strtol(slow, NULL, 10);
        moment->tv_sec = now / 1000000000;
        moment->tv_nsec = now % 1000000000;
    }
}

int clock_gettime(clockid_t clock, struct timespec *moment)
{
    const char *text = getenv("CLOCK_CALLS"), *fails = getenv("CLOCK_FAILS");
    const char *out = getenv("CLOCK_OUT");
    int is_out = (out && access(out, F_OK) == 0) || (text && atomic_fetch_add(&calls, 1) >= strtol(text, NULL, 10));
    if (is_out || (fails && gettid() == getpid() && unlink(fails) == 0)) {
        errno = EINVAL;
        return -1;
    }
    int status = (int)syscall(SYS_clock_gettime, clock, moment);
    if (clock == CLOCK_REALTIME) {
        set_day(moment);
    } else if (clock == CLOCK_MONOTONIC) {
        move_on(moment);
        slow_down(moment);
    }
    return status;
}
