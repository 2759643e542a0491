/*
 * The checker of checker.s, in C: a device of two commit slots, as its recovery
 * reads it.
 */
#include "checker.h"

struct slot {
	u64 number;	/* of the commit, from 1 on */
	u64 payload;	/* the mix of its payload */
};

u64 check(const struct context *context)
{
	u64 acknowledged = context->marks;
	u64 number = 0, chosen = 0, index = 0;
	const struct slot *slot;

	for (;;) {
		AT_MOST(2, looked_at_all);
		if (mix(index) == 1) {
			slot = sector(index);
			if (!slot)
				return 3;
			if (slot->number > number) {
				number = slot->number;
				chosen = index;
			}
		}
		index++;
	}

looked_at_all:
	if (number < acknowledged)
		return 2;
	if (number == 0)
		return 0;
	slot = sector(chosen);
	if (!slot)
		return 3;
	if (mix(chosen + 2) == slot->payload)
		return 0;
	report(number);
	return 1;
}
