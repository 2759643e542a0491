/*
 * Records from sector 1 on, one a sector, with rising numbers from that of the super block
 * on; the first sector without the magic ends them. There are as many as marks were passed.
 */
#include "checker.h"

u64 check(const struct context *context)
{
	u64 first = u64_at(8), i;

	for (i = 1; i < context->sectors; i++) {
		TURN(16384, return TURNS_SPENT);
		if (u64_at(512 * i) != 0x4c4e524a)
			break;
		if (u64_at(512 * i + 8) != first + i - 1) {
			report(i);
			return 1;
		}
	}
	return i - 1 < context->marks ? 2 : 0;
}
