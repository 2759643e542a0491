/*
 * An extent in one word: 40 bits of start, 16 of length, 8 of flags. The length is a power of two,
 * the start is aligned to it, the top flag isn't set, and the number of set bits is even.
 */
#include "checker.h"

u64 check(const struct context *context)
{
	u64 extent = u64_at(512);
	u64 start = extent & ((1ull << 40) - 1), length = extent >> 40 & 0xffff, flags = extent >> 56;

	if ((length & (length - 1)) != 0)
		return 1;
	if (start != 0 && (start & -start) < length)
		return 2;
	if ((flags & 0x80) != 0)
		return 3;
	return __builtin_parityll(extent) == 0 ? 0 : 4;
}
