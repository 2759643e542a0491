/*
 * The checker of checker.s, in C: a copy-on-write tree, as its recovery reads it.
 */
#include "checker.h"

struct header {
	u64 commit;	/* the last one */
	u64 root;	/* the sector of its root node */
};

struct child {
	u64 sector;
	u64 commit;	/* that wrote it */
};

struct node {
	u64 commit;	/* that wrote it */
	struct child left, right;
};

/* 1 where the sector has a whole node of that commit, else 0. */
LOCAL(check) u64 is_of(u64 place, u64 commit)
{
	const struct node *node;

	if (mix(place) != 1)
		return 0;
	node = SECTOR(place, return 0);
	return node->commit == commit;
}

u64 check(const struct context *context)
{
	const struct header *header = SECTOR(0, return 3);
	u64 commit = header->commit, place = header->root;
	const struct node *node;
	struct child left, right;

	if (commit < context->marks)
		return 2;
	if (commit == 0)
		return 0;
	if (!is_of(place, commit))
		goto broken;
	node = SECTOR(place, goto broken);
	left = node->left;
	right = node->right;
	place = left.sector;
	if (!is_of(place, left.commit))
		goto broken;
	place = right.sector;
	if (!is_of(place, right.commit))
		goto broken;
	return 0;

broken:
	report(place);
	return 1;
}
