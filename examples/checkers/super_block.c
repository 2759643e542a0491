/*
 * A super block at the start of the device: magic, version, size of a sector as a
 * power of two, number of sectors. Little-endian fields of four sizes.
 */
#include "checker.h"

u64 check(const struct context *context)
{
	if (u32_at(0) != 0x31534643)
		return 1;
	if (u16_at(4) > 3)
		return 2;
	if (u8_at(6) != 9)
		return 3;
	if (u64_at(8) > context->sectors)
		return 4;
	return 0;
}
