/* Every node of a B-tree of degree 15, walked depth first with a stack: keys rise, and each node lies where none other does. */
#include "../types.h"

struct node {
	u32 magic;
	u16 level, count;
	u64 keys[15];
	u16 children[16];
};

#define MAGIC 0x45455242
#define DEPTH 4

u64 check(const struct context *c)
{
	const struct { u64 root, nodes; } *super = sector(0);
	u16 path[DEPTH], at[DEPTH];
	u64 seen = 0, visited = 0;
	int depth = 0;

	if (!super)
		return 1;
	if (super->root == 0)
		return super->nodes != 0;
	if (super->root >= 64)
		return 2;
	path[0] = super->root;
	at[0] = 0;
	while (depth >= 0) {
		const struct node *n = sector(path[depth]);
		int i = at[depth];

		if (!n || n->magic != MAGIC || n->count > 15)
			return 3;
		if (i == 0) {
			if (seen >> path[depth] & 1)
				return 4;
			seen |= 1ull << path[depth];
			visited++;
			for (int k = 1; k < n->count; k++)
				if (n->keys[k - 1] >= n->keys[k])
					return 5;
		}
		if (n->level == 0 || i > n->count) {
			depth--;
			continue;
		}
		at[depth]++;
		if (depth + 1 >= DEPTH || n->children[i] >= 64)
			return 6;
		depth++;
		path[depth] = n->children[i];
		at[depth] = 0;
	}
	return visited == super->nodes ? 0 : 7;
}
