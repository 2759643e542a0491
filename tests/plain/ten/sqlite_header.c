/* An SQLite database with pages of 512 bytes: its header, the list of free pages, and the page of the schema. */
#include "checker.h"

static u16 be16(const u8 *p)
{
	return p[0] << 8 | p[1];
}

static u32 be32(const u8 *p)
{
	return (u32)p[0] << 24 | p[1] << 16 | p[2] << 8 | p[3];
}

static int header(const u8 *p, u64 sectors)
{
	if (memcmp(p, "SQLite format 3", 16) != 0)
		return 1;
	if (be16(p + 16) != 512 || p[21] != 64 || p[22] != 32 || p[23] != 32)
		return 2;
	if (be32(p + 28) > sectors)
		return 3;
	if (be32(p + 92) != be32(p + 24))
		return 4;
	return 0;
}

u64 check(const struct context *context)
{
	const u8 *first = sector(0);
	u32 pages, free, trunk, seen = 0;

	if (!first)
		return 9;
	int error = header(first, context->sectors);
	if (error)
		return error;
	pages = be32(first + 28);
	trunk = be32(first + 32);
	free = be32(first + 36);

	while (trunk) {
		if (trunk > pages)
			return 5;
		const u8 *p = sector(trunk - 1);
		if (!p)
			return 5;
		u32 leaves = be32(p + 4);
		if (leaves > 126)
			return 6;
		for (u32 i = 0; i < leaves; i++) {
			u32 leaf = be32(p + 8 + 4 * i);

			if (leaf < 2 || leaf > pages) {
				report(leaf);
				return 7;
			}
		}
		seen += leaves + 1;
		if (seen > free)
			return 8;
		trunk = be32(p);
	}
	if (seen != free)
		return 8;

	/* The schema: a leaf or an inner page, whose cells lie after its array of pointers. */
	const u8 *schema = first + 100;
	if (schema[0] != 13 && schema[0] != 5)
		return 10;
	u32 cells = be16(schema + 3), start = be16(schema + 5);
	u32 array = 100 + (schema[0] == 13 ? 8 : 12);
	if (array + 2 * cells > start)
		return 11;
	for (u32 i = 0; i < cells; i++) {
		u32 cell = be16(first + array + 2 * i);

		if (cell < start || cell >= 512)
			return 12;
	}
	return 0;
}
