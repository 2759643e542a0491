/*
 * As many bits are set in the bitmap of sector 1 as the super block says are in use. The
 * inner loop makes a turn for each set bit, over the whole run at most 4,096.
 */
#include "checker.h"

u64 check(const struct context *context)
{
	const u64 *bitmap = SECTOR(1, return 1);
	u64 used = 0;

	for (u64 i = 0; i < 64; i++) {
		TURN_BELOW(i, 64, return TURNS_SPENT);
		for (u64 word = bitmap[i]; word != 0; word &= word - 1) {
			TURN(4096, return TURNS_SPENT);
			used++;
		}
	}
	return used == u32_at(16) ? 0 : 2;
}
