/*
 * The checker of checker.s, in C: pages with a double-write buffer, as their
 * recovery reads them.
 */
#include "checker.h"

struct page {
	u64 version;	/* from 1 on; 0: it was never written */
	u64 number;
};

#define NONE (-1ull)

/* The version of a page, where it is whole in two sectors, else 0. */
LOCAL(check) u64 version_at(u64 first, u64 number)
{
	const struct page *page;

	if (mix(first) + mix(first + 1) != 1)
		return 0;
	page = SECTOR(first, return 0);
	return page->number == number ? page->version : 0;
}

/* The version of a page that recovery takes, or NONE. */
LOCAL(check) u64 recovered(u64 number)
{
	u64 first = 2 * number, version = version_at(first, number);

	if (version)
		return version;
	if (zero(first) == 1 && zero(first + 1) == 1)
		return 0;
	version = version_at(8 + 2 * (number & 1), number);
	return version ? version : NONE;
}

u64 check(const struct context *context)
{
	u64 acknowledged = context->marks, number, version;

	if (context->sectors < 12)
		return 3;
	for (number = 0; number < 4; number++) {
		TURN(5, return TURNS_SPENT);
		version = recovered(number);
		if (version == NONE) {
			report(number);
			return 1;
		}
		if (version < (acknowledged + 1 - number / 2) / 2) {
			report(number);
			return 2;
		}
	}
	return 0;
}
