/* The manifest of an LSM tree: edits in sectors 1 to 8 add and drop tables. After all of them, tables of one level that are
 * alive don't overlap, and each has a footer. */
#include "checker.h"

#define MAX_TABLES 16

struct edit {
	u8 kind; /* 1 adds, 2 drops, 0 ends */
	u8 level;
	u16 table;
	u32 sector;
	u32 low;
	u32 high;
};

struct table {
	u8 alive;
	u8 level;
	u32 sector;
	u32 low;
	u32 high;
};

struct footer {
	u32 magic;
	u16 table;
	u16 entries;
	u32 low;
	u32 high;
};

u64 check(const struct context *context)
{
	struct table tables[MAX_TABLES];
	int done = 0;

	memset(tables, 0, sizeof(tables));
	for (int block = 1; block <= 8 && !done; block++) {
		const struct edit *edits = sector(block);

		if (!edits)
			return 9;
		for (int i = 0; i < 32; i++) {
			const struct edit *e = &edits[i];

			if (e->kind == 0) {
				done = 1;
				break;
			}
			if (e->table >= MAX_TABLES)
				return 1;
			struct table *t = &tables[e->table];
			if (e->kind == 1) {
				if (t->alive)
					return 2;
				t->alive = 1;
				t->level = e->level;
				t->sector = e->sector;
				t->low = e->low;
				t->high = e->high;
			} else {
				if (!t->alive)
					return 3;
				t->alive = 0;
			}
		}
	}

	for (int i = 0; i < MAX_TABLES; i++) {
		if (!tables[i].alive)
			continue;
		const struct footer *f = sector(tables[i].sector);
		if (!f || f->magic != 0x4c534d54 || f->table != i || f->low != tables[i].low || f->high != tables[i].high) {
			report(i);
			return 4;
		}
		for (int k = 0; k < i; k++)
			if (tables[k].alive && tables[k].level == tables[i].level && tables[i].level > 0 &&
			    tables[k].low <= tables[i].high && tables[i].low <= tables[k].high)
				return 5;
	}
	return context->marks > 1000;
}
