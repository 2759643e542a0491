/* Pages of 1,024 bytes from sector 4 on, of which the first ones have checksums of their own kind; a table of seeds. */
#include "checker.h"

static u8 page[1024];
static const u32 seeds[4] = { 0xffffffff, 0, 0x12345678, 7 };
static u64 sums[8] = { 1, 2, 3 };

u64 check(const struct context *c)
{
	u64 bad = 0;

	for (u64 i = 0; i < 6; i++) {
		u64 at = 2048 + 1024 * i, kind = u8_at(at) & 3;

		if (read_bytes(at, page, 1024))
			return 9;
		switch (kind) {
		case 0:
			sums[i] += crc32c_at(seeds[u8_at(at + 1) & 3], at, 1000 + u8_at(at + 2));
			break;
		case 1:
			sums[i] ^= crc32_memory(seeds[0], page + 8, 1016);
			break;
		case 2:
			sums[i] = adler32_memory(1, page, 300);
			break;
		default:
			sums[i] -= xxhash64_memory(i, page, 100 + u8_at(at + 3) % 32);
		}
		if (crc32c_memory(0, page, 1024) != crc32c_at(0, at, 1024) || crc32_memory(5, page, 1000) != crc32_at(5, at, 1000))
			return 8;
		report(sums[i]);
		bad += u32_in_be(page + 1020) == (u32)sums[i];
	}
	return bad + (sums[0] & 1 ? 2 : 0);
}
