/*
 * How often each time came, in a fixed memory: a time is known to one part in 128, and the least ones exactly.
 */
#ifndef BENCH_HISTOGRAM_H
#define BENCH_HISTOGRAM_H

#include <stdint.h>

enum { HISTOGRAM_BITS = 7, HISTOGRAM_CELLS = (64 - HISTOGRAM_BITS + 1) << HISTOGRAM_BITS };

struct histogram {
	uint64_t count, greatest;
	uint64_t cells[HISTOGRAM_CELLS];
};

void histogram_clear(struct histogram *histogram);
void histogram_add(struct histogram *histogram, uint64_t time);

/* The time that this part of the whole, in thousandths, did not pass; 0 of an empty one. */
uint64_t histogram_at(const struct histogram *histogram, unsigned thousandths);

#endif
