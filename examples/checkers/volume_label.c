/* The label at byte 120 is printable, and zeros from its end to byte 135, with at least one. */
#include "checker.h"

u64 check(const struct context *context)
{
	u64 ended = 0;

	for (u64 i = 0; i < 16; i++) {
		u64 letter;

		TURN(16, return TURNS_SPENT);
		letter = u8_at(120 + i);
		if (letter == 0)
			ended = 1;
		else if (ended || letter < 0x20 || letter > 0x7e)
			return 1;
	}
	return ended ? 0 : 2;
}
