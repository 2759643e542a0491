/*
 * A list of free blocks: the super block has the number of the first one and how many
 * there are, each block has a magic and the number of the next one, 0 ends it.
 */
#include "checker.h"

u64 check(const struct context *context)
{
	u64 count = 0;

	for (u64 block = u32_at(8); block != 0; block = u32_at(512 * block + 4)) {
		TURN(64, return 3);                     /* a cycle */
		if (u32_at(512 * block) != 0x45455246) {
			report(block);
			return 1;
		}
		count++;
	}
	return count == u32_at(12) ? 0 : 2;
}
