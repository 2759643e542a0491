/* Two names of 16 bytes, whose positions in sector 0 its first words give, are equal. */
#include "checker.h"

INLINED u64 names_equal(u64 one, u64 other)
{
	for (u64 i = 0; i < 16; i++) {
		TURN(16, return 0);
		if (u8_at(one + i) != u8_at(other + i))
			return 0;
	}
	return 1;
}

u64 check(const struct context *context)
{
	u64 one = u16_at(0), other = u16_at(2);

	if (one > 496 || other > 496)
		return 1;
	return names_equal(one, other) ? 0 : 2;
}
