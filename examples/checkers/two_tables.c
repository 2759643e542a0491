/*
 * Two tables, in sectors 1 and 2, each of 63 words and their sum. One function goes over both. It is
 * LOCAL, so it stands in the program once; what it is given and what it answers are numbers.
 */
#include "checker.h"

LOCAL(check) u64 fault_of(u64 table, u64 answer)
{
	u64 position = 512 * table, sum = 0;

	for (u64 i = 0; i < 63; i++) {
		TURN(126, return TURNS_SPENT);
		sum += u64_at(position + 8 * i);
	}
	return sum == u64_at(position + 504) ? 0 : answer;
}

u64 check(const struct context *context)
{
	u64 fault = fault_of(1, 2);

	return fault ? fault : fault_of(2, 3);
}
