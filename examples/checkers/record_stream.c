/*
 * Records of 24 bytes from sector 1 on, one after the other, also over the end of a sector:
 * number, length, kind, and the three xored. The first with number 0 ends them.
 */
#include "checker.h"

struct record {
	u64 number;
	u32 length, kind;
	u64 sum;
};

u64 check(const struct context *context)
{
	u64 i;

	for (i = 0; i < 100; i++) {
		struct record record;

		TURN(100, return TURNS_SPENT);
		if (copy(512 + 24 * i, &record, sizeof record))
			return 1;
		if (record.number == 0)
			break;
		if (record.number != i + 1)
			return 2;
		if ((record.number ^ record.length ^ record.kind) != record.sum)
			return 3;
	}
	return i < context->marks ? 4 : 0;
}
