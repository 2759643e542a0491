/* A FAT of 16-bit entries in sectors 1 and 2, its copy in 3 and 4, a root directory of 16 entries in sector 5. */
#include "../types.h"

#define CLUSTERS 512
#define END 0xfff8

struct directory_entry {
	char name[8], extension[3];
	u8 attributes, unused[14];
	u16 first;
	u32 size;
};

static u16 next_of(u16 cluster)
{
	const u16 *fat = sector(1 + cluster / 256);

	return fat ? fat[cluster % 256] : 0;
}

static int chain_length(u16 first)
{
	int length = 0;

	for (u16 at = first; at < END; at = next_of(at)) {
		if (at < 2 || at >= CLUSTERS)
			return -1;
		if (++length > CLUSTERS)
			return -1;
	}
	return length;
}

u64 check(const struct context *c)
{
	const struct directory_entry *d = sector(5);
	int used = 0, chained = 0;

	if (!d)
		return 1;
	if (c->marks == 0 && d->name[0] == 0)
		return 0;
	for (int i = 0; i < 2; i++)
		if (same(1 + i, 3 + i) != 1)
			return 2;
	for (int i = 0; i < 16; i++) {
		int length;

		if (d[i].name[0] == 0)
			break;
		if ((u8)d[i].name[0] == 0xe5)
			continue;
		if (d[i].size == 0) {
			if (d[i].first != 0)
				return 3;
			continue;
		}
		length = chain_length(d[i].first);
		if (length < 0) {
			report(i);
			return 4;
		}
		if ((d[i].size + 511) / 512 != (u32)length)
			return 5;
		chained += length;
	}
	for (int i = 2; i < CLUSTERS; i++)
		if (next_of(i) != 0)
			used++;
	return used == chained ? 0 : 6;
}
