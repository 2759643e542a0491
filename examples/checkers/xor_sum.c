/* The words of sector 0, xored, are 0. */
#include "checker.h"

u64 check(const struct context *context)
{
	const u64 *words = SECTOR(0, return 1);
	u64 sum = 0;

	for (u64 i = 0; i < 64; i++) {
		TURN_BELOW(i, 64, return TURNS_SPENT);
		sum ^= words[i];
	}
	return sum == 0 ? 0 : 2;
}
