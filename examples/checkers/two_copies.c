/* Two copies of a header that may differ in their first word alone, compared word by word. */
#include "checker.h"

u64 check(const struct context *context)
{
	const u64 *first = SECTOR(0, return 1);
	const u64 *second = SECTOR(1, return 1);

	for (u64 i = 1; i < 64; i++) {
		TURN_BELOW(i, 64, return TURNS_SPENT);
		if (first[i] != second[i]) {
			report(i);
			return 2;
		}
	}
	return 0;
}
