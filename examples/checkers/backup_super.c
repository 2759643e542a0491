/* The last sector of the device is a copy of the first. */
#include "checker.h"

u64 check(const struct context *context)
{
	u64 last = context->sectors - 1;

	if (same(0, last) == 1)
		return 0;
	report(last);
	return 1;
}
