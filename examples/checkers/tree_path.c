/*
 * The way from the root of a B-tree to the leaf that has the key of the super block. A node has
 * its level, the number of its entries, its own sector, and up to 31 entries: a key and a child.
 */
#include "checker.h"

struct node {
	u16 level, count;
	u32 self;
	struct {
		u64 key;
		u32 child, unused;
	} entries[31];
};

u64 check(const struct context *context)
{
	u64 key = u64_at(8), at = u32_at(4), above = 4;

	for (;;) {
		const struct node *node;
		u64 count, i;

		TURN(5, return TURNS_SPENT);
		node = SECTOR(at, return 1);
		count = node->count;
		if (node->self != at || node->level >= above || count == 0 || count > 31)
			return 2;
		above = node->level;
		for (i = 0; i + 1 < count; i++) {
			TURN(5 * 31, return TURNS_SPENT);
			BELOW(i, 30, return 2);
			if (node->entries[i + 1].key > key)
				break;
		}
		BELOW(i, 31, return 2);
		if (node->entries[i].key > key)
			return 3;
		if (above == 0)
			return node->entries[i].key == key ? 0 : 4;
		at = node->entries[i].child;
	}
}
