/* A sector of records of one type: that many of the type's size have to fit after the header. */
#include "checker.h"

INLINED u64 size_of_type(u64 type)
{
	switch (type) {
	case 0: return 8;
	case 1: return 24;
	case 2: return 16;
	case 3: return 40;
	case 4: return 64;
	case 5: return 12;
	default: return 0;
	}
}

u64 check(const struct context *context)
{
	u64 size = size_of_type(u32_at(0));

	if (size == 0)
		return 1;
	return size * u32_at(4) + 16 > 512 ? 2 : 0;
}
