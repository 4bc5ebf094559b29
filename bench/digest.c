/*
 * digest: prints MD5s, for the comparison with another MD5.
 *
 * Each line of standard input is a number and digits: feeds the octets that the hexadecimal digits are, `-` for none, in
 * pieces of that many, and prints the digest. It ends at the first line that is none such.
 */
#include "md5.h"

#include <stdio.h>
#include <string.h>

enum { MOST = 8192 };

/* The octets that these digits are; -1 where they are none. */
static int octets_of(const char *digits, uint8_t octets[MOST])
{
	int count = 0;

	if (strcmp(digits, "-") == 0)
		return 0;
	for (; digits[0] != '\0'; digits += 2, count++) {
		unsigned octet;

		if (count == MOST || digits[1] == '\0' || sscanf(digits, "%2x", &octet) != 1)
			return -1;
		octets[count] = (uint8_t)octet;
	}
	return count;
}

int main(void)
{
	static char digits[2 * MOST + 1];
	static uint8_t octets[MOST];
	unsigned piece;

	while (scanf("%u %16384s", &piece, digits) == 2) {
		int count = octets_of(digits, octets);
		uint8_t digest[MD5_OCTETS];
		struct md5 md5;

		if (count < 0 || piece == 0)
			return 1;
		md5_start(&md5);
		for (unsigned at = 0; at < (unsigned)count; at += piece) {
			unsigned left = (unsigned)count - at;

			md5_feed(&md5, octets + at, left < piece ? left : piece);
		}
		md5_finish(&md5, digest);
		for (int i = 0; i < MD5_OCTETS; i++)
			printf("%02x", digest[i]);
		putchar('\n');
	}
	return 0;
}
