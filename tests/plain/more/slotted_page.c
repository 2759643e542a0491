/* Slotted pages of a heap file, one a sector from 1 on: no two records may overlap, and the free space has to add up. */
#include "../types.h"

struct page {
	u32 lsn;
	u16 count, free_start, free_end, flags;
	struct { u16 offset, length; } slot[];
};

static int page_fault(const struct page *p)
{
	unsigned char used[64];
	unsigned live = 0;

	memset(used, 0, sizeof used);
	if (p->count > 100)
		return 1;
	if (p->free_start != sizeof *p + p->count * sizeof p->slot[0])
		return 2;
	if (p->free_end > 512 || p->free_end < p->free_start)
		return 3;
	for (int i = 0; i < p->count; i++) {
		unsigned from = p->slot[i].offset, to = from + p->slot[i].length;

		if (p->slot[i].length == 0)
			continue;
		if (from < p->free_end || to > 512)
			return 4;
		for (unsigned at = from; at < to; at++) {
			if (used[at / 8] & (1 << at % 8))
				return 5;
			used[at / 8] |= 1 << at % 8;
			live++;
		}
	}
	return live > 512u - p->free_end ? 6 : 0;
}

u64 check(const struct context *c)
{
	for (u64 n = 1; n < c->sectors; n++) {
		const struct page *p = sector(n);
		int fault;

		if (!p)
			return 1;
		if (zero(n))
			continue;
		fault = page_fault(p);
		if (fault) {
			report(n);
			report(p->lsn);
			return 10 + fault;
		}
	}
	return 0;
}
