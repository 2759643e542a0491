/* The last four bytes of sector 0 are the Adler-32 of those before. */
#include "checker.h"

u64 check(const struct context *context)
{
	u64 low = 1, high = 0;

	for (u64 i = 0; i < 508; i++) {
		TURN(508, return TURNS_SPENT);
		low = (low + u8_at(i)) % 65521;
		high = (high + low) % 65521;
	}
	return (high << 16 | low) == u32_at(508) ? 0 : 1;
}
