/*
 * The checker of the database of cases.py: a copy-on-write tree in pages of eight
 * sectors. Pages 0 and 1 are meta pages, written in turn: each has the number of its
 * commit, and the page of the root. A root has the pages of four leaves, and the commit
 * that wrote each of them. A leaf has six records in rising order of their keys. The
 * mixes of a page's sectors have the sum 1. Recovery takes the meta page of the later
 * commit; what hangs from it has to be there, whole, and of the commit that is named.
 */
#include "checker.h"

#define LEAVES 4
#define RECORDS 6
#define PAGE 8

INLINED u64 word(u64 page, u64 at, u64 none)
{
	const u64 *content = sector(PAGE * page + at / 64);

	return content ? content[at % 64] : none;
}

/* Whether a page is whole, of that number and of that commit. */
INLINED int is_page(u64 page, u64 commit)
{
	u64 sum = 0;

#pragma unroll
	for (u64 i = 0; i < PAGE; i++)
		sum += mix(PAGE * page + i);
	return sum == 1 && word(page, 0, 0) == page && word(page, 1, 0) == commit;
}

INLINED int is_leaf(u64 page, u64 commit)
{
	u64 before = 0;

	if (!is_page(page, commit))
		return 0;
#pragma unroll
	for (u64 i = 0; i < RECORDS; i++) {
		const u64 *record = sector(PAGE * page + 1 + i);

		if (!record || record[0] <= before || record[1] != record[0] * commit)
			return 0;
		before = record[0];
	}
	return 1;
}

u64 check(const struct context *context)
{
	u64 commit = word(0, 1, 0), root = word(0, 2, 0);

	if (word(1, 1, 0) > commit) {
		commit = word(1, 1, 0);
		root = word(1, 2, 0);
	}
	if (root >= context->sectors / PAGE || !is_page(root, commit)) {
		report(commit);
		return 1;
	}
#pragma unroll
	for (u64 i = 0; i < LEAVES; i++)
		if (!is_leaf(word(root, 2 + 2 * i, 0), word(root, 3 + 2 * i, 0))) {
			report(commit);
			report(i);
			return 2;
		}
	return 0;
}
