#include "histogram.h"

#include <string.h>

/* How many low bits of a time its cell leaves out. */
static unsigned left_out(uint64_t time)
{
	unsigned bits = time == 0 ? 0 : 64 - (unsigned)__builtin_clzll(time);

	return bits > HISTOGRAM_BITS + 1 ? bits - HISTOGRAM_BITS - 1 : 0;
}

static unsigned cell_of(uint64_t time)
{
	unsigned shift = left_out(time);

	return (shift << HISTOGRAM_BITS) + (unsigned)(time >> shift);
}

/* The greatest time of a cell. */
static uint64_t greatest_of(unsigned cell)
{
	unsigned shift = cell >> HISTOGRAM_BITS;

	shift = shift > 0 ? shift - 1 : 0;
	return ((((uint64_t)cell - ((uint64_t)shift << HISTOGRAM_BITS)) + 1) << shift) - 1;
}

void histogram_clear(struct histogram *histogram)
{
	memset(histogram, 0, sizeof *histogram);
}

void histogram_add(struct histogram *histogram, uint64_t time)
{
	histogram->count++;
	histogram->cells[cell_of(time)]++;
	if (time > histogram->greatest)
		histogram->greatest = time;
}

uint64_t histogram_at(const struct histogram *histogram, unsigned thousandths)
{
	uint64_t wanted = (histogram->count * thousandths + 999) / 1000, sum = 0;

	for (unsigned cell = 0; cell < HISTOGRAM_CELLS && wanted > 0; cell++) {
		sum += histogram->cells[cell];
		if (sum >= wanted) {
			uint64_t greatest = greatest_of(cell);

			return greatest < histogram->greatest ? greatest : histogram->greatest;
		}
	}
	return 0;
}
