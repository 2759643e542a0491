/* The bitmap of bitmap_count.c, counted by what the compiler has for it. */
#include "checker.h"

u64 check(const struct context *context)
{
	u64 used = 0;

	for (u64 i = 0; i < 64; i++) {
		TURN(64, return TURNS_SPENT);
		used += __builtin_popcountll(u64_at(512 + 8 * i));
	}
	return used == u32_at(16) ? 0 : 2;
}
