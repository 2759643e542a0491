/* An index from the disk has to be below 128, and the word of sector 1 at it isn't 0. */
#include "checker.h"

u64 check(const struct context *context)
{
	const u32 *table = SECTOR(1, return 1);
	u64 i = u32_at(4);

	BELOW(i, 128, return 2);
	return table[i] != 0 ? 0 : 3;
}
