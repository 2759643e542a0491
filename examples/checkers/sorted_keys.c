/* A binary search over the 64 keys of sector 1 finds the key of the super block. */
#include "checker.h"

u64 check(const struct context *context)
{
	u64 key = u64_at(8), low = 0, high = 64;

	while (low < high) {
		u64 middle = (low + high) / 2, found;

		TURN(7, return TURNS_SPENT);
		found = u64_at(512 + 8 * middle);
		if (found == key)
			return 0;
		if (found < key)
			low = middle + 1;
		else
			high = middle;
	}
	return 1;
}
