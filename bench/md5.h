/* MD5 (RFC 1321), in pieces of any length. */
#ifndef BENCH_MD5_H
#define BENCH_MD5_H

#include <stddef.h>
#include <stdint.h>

enum { MD5_OCTETS = 16, MD5_BLOCK = 64 };

struct md5 {
	uint32_t state[4];
	uint64_t total; /* octets so far */
	uint8_t pending[MD5_BLOCK]; /* those of a block that isn't full */
};

void md5_start(struct md5 *md5);
void md5_feed(struct md5 *md5, const void *octets, size_t count);
void md5_finish(struct md5 *md5, uint8_t digest[MD5_OCTETS]);

#endif
