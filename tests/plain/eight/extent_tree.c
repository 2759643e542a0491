/* An extent tree of depth up to 3 from sector 1, walked with a stack of its own; extents must rise and not overlap. */
#include "checker.h"

struct node {
	u16 magic, count, depth, unused;
	struct { u32 logical; u32 block; u32 length; } at[42];
};

u64 check(const struct context *context)
{
	struct { u32 block; u16 index; u16 depth; } stack[4];
	int top = 0;
	u64 end = 0, extents = 0;

	stack[0].block = 1;
	stack[0].index = 0;
	stack[0].depth = 3;
	while (top >= 0) {
		const struct node *node = sector(stack[top].block);
		u16 i = stack[top].index++;

		if (!node || node->magic != 0xf30a)
			return top ? 1 : 0;
		if (node->count > 42 || node->depth > stack[top].depth)
			return 2;
		if (i >= node->count) {
			top--;
			continue;
		}
		if (node->depth == 0) {
			if (node->at[i].logical < end) {
				report(node->at[i].logical);
				return 3;
			}
			end = (u64)node->at[i].logical + node->at[i].length;
			extents++;
			continue;
		}
		if (top == 3)
			return 4;
		top++;
		stack[top].block = node->at[i].block;
		stack[top].index = 0;
		stack[top].depth = node->depth - 1;
	}
	return extents > 500 ? 5 : 0;
}
