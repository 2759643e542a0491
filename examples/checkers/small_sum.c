/* The first four words of sector 0 add up to the fifth. Four turns need no TURN. */
#include "checker.h"

u64 check(const struct context *context)
{
	u64 sum = 0;

	for (u64 i = 0; i < 4; i++)
		sum += u64_at(8 * i);
	return sum == u64_at(32) ? 0 : 1;
}
