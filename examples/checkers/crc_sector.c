/* The last four bytes of sector 0 are the CRC-32C of those before. */
#include "checker.h"

u64 check(const struct context *context)
{
	u32 crc = CRC32C_START;

	for (u64 i = 0; i < 508; i++) {
		TURN(508, return TURNS_SPENT);
		crc = crc32c(crc, u8_at(i));
	}
	return ~crc == u32_at(508) ? 0 : 1;
}
