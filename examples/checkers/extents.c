/*
 * Sector 1 has 64 extents: a start of 48 bits and a length of 16. An extent with a length lies
 * on the device. A function with a pointer is fine where it is INLINED.
 */
#include "checker.h"

INLINED u64 start_of(const u8 *extent)
{
	return *(const u32 *)extent | (u64)*(const u16 *)(extent + 4) << 32;
}

INLINED u64 lies_on(const struct context *context, const u8 *extent)
{
	u64 start = start_of(extent), length = *(const u16 *)(extent + 6);

	return length == 0 || (start < context->sectors && length <= context->sectors - start);
}

u64 check(const struct context *context)
{
	const u8 *extents = SECTOR(1, return 1);

	for (u64 i = 0; i < 64; i++) {
		TURN_BELOW(i, 64, return TURNS_SPENT);
		if (!lies_on(context, extents + 8 * i)) {
			report(i);
			return 2;
		}
	}
	return 0;
}
