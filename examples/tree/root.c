/*
 * The checker of README.md: the root node that the header names is there.
 * checker.c looks at the leaves too, and at what was acknowledged.
 */
#include "checker.h"

u64 check(const struct context *context)
{
	const u64 *header = SECTOR(0, return 2), *root = sector(header[1]);

	if (header[0] == 0)
		return 0;		/* nothing was committed yet */
	if (root && mix(header[1]) == 1 && root[0] == header[0])
		return 0;		/* the root node is whole, and of this commit */
	report(header[0]);
	return 1;			/* this commit is broken */
}
