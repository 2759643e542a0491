/* A B-tree of pages of one sector: a walk over all pages from the root, with a stack. Keys go up, leaves stand at one depth. */
#include "checker.h"

#define DEPTH 4
#define KEYS 30

struct page {
	u16 magic;
	u8 leaf;
	u8 count;
	u32 crc;
	u64 keys[KEYS];
	u64 children[KEYS + 1];
};

struct frame {
	u32 page;
	u32 next;
};

static int check_page(const struct page *p)
{
	if (p->magic != 0x4254 || p->count == 0 || p->count > KEYS)
		return 1;
	for (int i = 1; i < p->count; i++)
		if (p->keys[i - 1] >= p->keys[i])
			return 2;
	return 0;
}

u64 check(const struct context *context)
{
	struct frame stack[DEPTH];
	int depth = 0, leaf_depth = -1;
	u64 visited = 0;
	const u32 *super = sector(0);

	if (!super)
		return 9;
	stack[0].page = super[0];
	stack[0].next = 0;
	while (depth >= 0) {
		struct frame *f = &stack[depth];
		const struct page *p = sector(f->page);

		if (!p)
			return 9;
		if (f->next == 0) {
			int error = check_page(p);

			if (error) {
				report(f->page);
				return error;
			}
			if (++visited > context->sectors)
				return 3;
		}
		if (p->leaf) {
			if (leaf_depth >= 0 && leaf_depth != depth)
				return 4;
			leaf_depth = depth;
			depth--;
			continue;
		}
		if (f->next > p->count) {
			depth--;
			continue;
		}
		if (depth + 1 == DEPTH)
			return 5;
		stack[depth + 1].page = p->children[f->next];
		stack[depth + 1].next = 0;
		f->next++;
		depth++;
	}
	return visited == super[1] ? 0 : 6;
}
