#include "md5.h"

#include <string.h>

/* Section 3.4: the whole part of 2^32 times the sine of 1, 2 .. 64, without its sign. */
static const uint32_t sines[64] = {
	0xd76aa478, 0xe8c7b756, 0x242070db, 0xc1bdceee,
	0xf57c0faf, 0x4787c62a, 0xa8304613, 0xfd469501,
	0x698098d8, 0x8b44f7af, 0xffff5bb1, 0x895cd7be,
	0x6b901122, 0xfd987193, 0xa679438e, 0x49b40821,
	0xf61e2562, 0xc040b340, 0x265e5a51, 0xe9b6c7aa,
	0xd62f105d, 0x02441453, 0xd8a1e681, 0xe7d3fbc8,
	0x21e1cde6, 0xc33707d6, 0xf4d50d87, 0x455a14ed,
	0xa9e3e905, 0xfcefa3f8, 0x676f02d9, 0x8d2a4c8a,
	0xfffa3942, 0x8771f681, 0x6d9d6122, 0xfde5380c,
	0xa4beea44, 0x4bdecfa9, 0xf6bb4b60, 0xbebfbc70,
	0x289b7ec6, 0xeaa127fa, 0xd4ef3085, 0x04881d05,
	0xd9d4d039, 0xe6db99e5, 0x1fa27cf8, 0xc4ac5665,
	0xf4292244, 0x432aff97, 0xab9423a7, 0xfc93a039,
	0x655b59c3, 0x8f0ccc92, 0xffeff47d, 0x85845dd1,
	0x6fa87e4f, 0xfe2ce6e0, 0xa3014314, 0x4e0811a1,
	0xf7537e82, 0xbd3af235, 0x2ad7d2bb, 0xeb86d391,
};

/* How far each round turns, step by step in fours. */
static const uint8_t turns[4][4] = {
	{ 7, 12, 17, 22 },
	{ 5, 9, 14, 20 },
	{ 4, 11, 16, 23 },
	{ 6, 10, 15, 21 },
};

static uint32_t turned(uint32_t word, unsigned by)
{
	return word << by | word >> (32 - by);
}

static uint32_t little_endian(const uint8_t *octets)
{
	return (uint32_t)octets[0] | (uint32_t)octets[1] << 8 | (uint32_t)octets[2] << 16 |
	       (uint32_t)octets[3] << 24;
}

/* What a step mixes in of the words b, c and d, by its round. */
static uint32_t mixed(unsigned round, uint32_t b, uint32_t c, uint32_t d)
{
	switch (round) {
	case 0:
		return d ^ (b & (c ^ d));
	case 1:
		return c ^ (d & (b ^ c));
	case 2:
		return b ^ c ^ d;
	default:
		return c ^ (b | ~d);
	}
}

/* Which word of the block a step takes, by its round. */
static unsigned taken(unsigned round, unsigned step)
{
	static const uint8_t factor[4] = { 1, 5, 3, 7 }, first[4] = { 0, 1, 5, 0 };

	return (factor[round] * step + first[round]) % 16;
}

/* One of the four rounds. It is compiled once for each, since in all calls `round` is a constant. */
static inline __attribute__((always_inline)) void mix_round(unsigned round, uint32_t now[4], const uint32_t words[16])
{
	uint32_t a = now[0], b = now[1], c = now[2], d = now[3];

#pragma GCC unroll 16
	for (unsigned step = 0; step < 16; step++) {
		uint32_t sum = a + mixed(round, b, c, d) + words[taken(round, step)] + sines[16 * round + step];

		a = d;
		d = c;
		c = b;
		b += turned(sum, turns[round][step % 4]);
	}
	now[0] = a;
	now[1] = b;
	now[2] = c;
	now[3] = d;
}

static void mix_block(uint32_t state[4], const uint8_t *block)
{
	uint32_t words[16], now[4];

	for (unsigned i = 0; i < 16; i++)
		words[i] = little_endian(block + 4 * i);
	memcpy(now, state, sizeof now);
	mix_round(0, now, words);
	mix_round(1, now, words);
	mix_round(2, now, words);
	mix_round(3, now, words);
	for (int i = 0; i < 4; i++)
		state[i] += now[i];
}

void md5_start(struct md5 *md5)
{
	static const uint32_t first[4] = { 0x67452301, 0xefcdab89, 0x98badcfe, 0x10325476 };

	memcpy(md5->state, first, sizeof first);
	md5->total = 0;
}

void md5_feed(struct md5 *md5, const void *octets, size_t count)
{
	const uint8_t *from = octets;

	while (count > 0) {
		size_t held = md5->total % MD5_BLOCK;
		size_t part = count < MD5_BLOCK - held ? count : MD5_BLOCK - held;

		if (part == MD5_BLOCK) {
			mix_block(md5->state, from);
		} else {
			memcpy(md5->pending + held, from, part);
			if (held + part == MD5_BLOCK)
				mix_block(md5->state, md5->pending);
		}
		md5->total += part;
		from += part;
		count -= part;
	}
}

void md5_finish(struct md5 *md5, uint8_t digest[MD5_OCTETS])
{
	static const uint8_t padding[MD5_BLOCK] = { 0x80 };
	uint64_t bits = md5->total * 8;
	size_t held = md5->total % MD5_BLOCK;
	uint8_t length[8];

	for (int i = 0; i < 8; i++)
		length[i] = (uint8_t)(bits >> 8 * i);
	md5_feed(md5, padding, held < 56 ? 56 - held : 120 - held);
	md5_feed(md5, length, sizeof length);
	for (int i = 0; i < MD5_OCTETS; i++)
		digest[i] = (uint8_t)(md5->state[i / 4] >> 8 * (i % 4));
}
