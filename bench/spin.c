/*
 * spin: keeps a processor at work.
 *
 * usage: spin SECONDS
 *
 * It ends after so many seconds, or by SIGTERM or SIGINT.
 */
#include "common.h"

#include <stdio.h>

int main(int count, char **words)
{
	uint64_t end;

	if (count != 2) {
		fputs("usage: spin SECONDS\n", stderr);
		return 2;
	}
	heed_signals();
	end = now() + number_of(words[1], 1, 86400) * SECOND;
	while (!is_ended() && now() < end)
		;
	return 0;
}
