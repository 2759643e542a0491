/*
 * Sector 1 has the type of each of 512 blocks, 0 to 7; bytes 64 to 79 of sector 0 have how
 * many there are of each. A pass for each type, in place of eight counters in an array.
 */
#include "checker.h"

u64 check(const struct context *context)
{
	for (u64 type = 0; type < 8; type++) {
		u64 count = 0;

		TURN(8, return TURNS_SPENT);
		for (u64 i = 0; i < 512; i++) {
			u64 found;

			TURN(8 * 512, return TURNS_SPENT);
			found = u8_at(512 + i);
			if (found > 7)
				return 1;
			count += found == type;
		}
		if (count != u16_at(64 + 2 * type)) {
			report(type);
			return 2;
		}
	}
	return 0;
}
