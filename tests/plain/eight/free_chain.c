/* Blocks 4 to 63 are either on the free chain that begins in the super block, or owned by a file; never both. */
#include "checker.h"

#define FIRST 4
#define BLOCKS 60

u64 check(const struct context *context)
{
	u8 seen[BLOCKS] = { 0 };
	u16 *files;
	u64 next = u16_at(16);
	u32 count = 0;

	if (u16_at(0) != 0xbeef)
		return 0;
	while (next != 0) {
		if (next < FIRST || next >= FIRST + BLOCKS) {
			report(next);
			return 1;
		}
		if (seen[next - FIRST]++)
			return 2;
		next = u16_at(512 * next);
		count++;
	}
	if (count != u16_at(18))
		return 3;
	files = (u16 *)sector(1);
	for (int i = 0; i < 32; i++) {
		u16 block = files[i];

		if (!block)
			continue;
		if (block < FIRST || block >= FIRST + BLOCKS)
			return 4;
		if (seen[block - FIRST]) {
			report(block);
			return 5;
		}
		seen[block - FIRST] = 1;
	}
	return 0;
}
