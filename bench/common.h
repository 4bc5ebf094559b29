/* What the generator and the home server share: time, sockets of 127.0.0.1, being ended, and how they are called. */
#ifndef BENCH_COMMON_H
#define BENCH_COMMON_H

#include <stdbool.h>
#include <stdint.h>

#define MICROSECOND UINT64_C(1000)
#define MILLISECOND UINT64_C(1000000)
#define SECOND UINT64_C(1000000000)

/* Ends the program with status 2 and a line on standard error. */
void fail(const char *what) __attribute__((noreturn));

/* A number among the words: all of it, and within the range; ends the program where it isn't. */
uint64_t number_of(const char *text, uint64_t least, uint64_t most);

/* Nanoseconds of a clock that never goes back. */
uint64_t now(void);

/* Processor time of this process so far, in microseconds. */
uint64_t processor_time(void);

/* From now on SIGINT and SIGTERM make `is_ended` true, and the end of the parent comes as a SIGTERM. */
void heed_signals(void);
bool is_ended(void);

/* A UDP socket of 127.0.0.1 at a port, 0 for any. Its buffers are asked to hold a megabyte. */
int bound_socket(uint16_t port);

/* A UDP socket at any port, which sends to and receives from 127.0.0.1 at this port alone, and never waits. */
int connected_socket(uint16_t port);

#endif
