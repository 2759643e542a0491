/* A super block in big-endian order: magic, number of sectors, version, time of the last mount. */
#include "checker.h"

u64 check(const struct context *context)
{
	u64 version = u16_at_be(16);

	if (u32_at_be(0) != 0x58465342)
		return 1;
	if (u64_at_be(8) > context->sectors)
		return 2;
	if (version < 1 || version > 5)
		return 3;
	return u64_at_be(24) == 0 ? 4 : 0;
}
