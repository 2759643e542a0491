/* Sector 1 has 16 inodes of 32 bytes with a link count; sectors 2 and 3 have directory entries that link to them. */
#include "checker.h"

struct inode {
	u16 mode, links;
	u32 size;
	u8 blocks[24];
};

struct entry {
	u16 inode;
	u8 kind, length;
	char name[12];
};

static int count_links(const struct entry *entry, int n, u16 *counts)
{
	for (int i = 0; i < n; i++, entry++) {
		if (entry->kind == 0)
			continue;
		if (entry->inode >= 16 || entry->length > sizeof entry->name)
			return -1;
		if (entry->length == 0 || entry->name[0] == '/')
			return -2;
		counts[entry->inode]++;
	}
	return 0;
}

u64 check(const struct context *context)
{
	u16 counts[16];
	const struct inode *inodes = sector(1);

	memset(counts, 0, sizeof counts);
	for (int block = 2; block <= 3; block++) {
		int status = count_links(sector(block), 32, counts);

		if (status < 0) {
			report(block);
			return -status;
		}
	}
	for (int i = 0; i < 16; i++) {
		const struct inode *inode = inodes + i;

		if (inode->mode == 0 ? counts[i] != 0 : counts[i] != inode->links) {
			report(i);
			report(counts[i]);
			return 3;
		}
		for (int k = 0; k < 24; k++)
			if (inode->blocks[k] && (u32)k * 512 >= inode->size)
				return 4;
	}
	return 0;
}
