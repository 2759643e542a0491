/* A manifest names its tables by number and key range; levels above 0 must not overlap, and each table has a footer. */
#include "../types.h"

struct manifest {
	char magic[8];
	u32 version, tables;
	struct table {
		u32 number, level;
		u8 smallest[8], largest[8];
	} table[20];
};

static const char *footer_magic = "TBLFOOT1";

static int compare(const u8 *a, const u8 *b)
{
	for (int i = 0; i < 8; i++)
		if (a[i] != b[i])
			return a[i] < b[i] ? -1 : 1;
	return 0;
}

u64 check(const struct context *c)
{
	const struct manifest *m = sector(0);
	const char *footer;

	if (!m)
		return 1;
	if (memcmp(m->magic, "MANIFEST", 8))
		return c->marks ? 2 : 0;
	if (m->tables > 20)
		return 3;
	for (u32 i = 0; i < m->tables; i++) {
		const struct table *t = &m->table[i];

		if (compare(t->smallest, t->largest) > 0)
			return 4;
		footer = sector(t->number);
		if (!footer)
			return 5;
		if (memcmp(footer + 504, footer_magic, 8) != 0)
			return 6;
		if (i > 0 && t->level > 0 && t[-1].level == t->level && compare(t[-1].largest, t->smallest) >= 0)
			return 7;
	}
	return 0;
}
