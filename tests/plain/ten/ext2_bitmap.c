/* ext2 with blocks of 1024 bytes and one group: free counts of super block and group against the two bitmaps. */
#include "checker.h"

struct super {
	u32 inodes;
	u32 blocks;
	u32 reserved;
	u32 free_blocks;
	u32 free_inodes;
	u32 first_block;
	u32 log_block_size;
	u32 log_frag_size;
	u32 blocks_per_group;
	u32 frags_per_group;
	u32 inodes_per_group;
	u32 mtime, wtime;
	u16 mounts, max_mounts;
	u16 magic;
	u16 state;
};

struct group {
	u32 block_bitmap;
	u32 inode_bitmap;
	u32 inode_table;
	u16 free_blocks;
	u16 free_inodes;
	u16 directories;
};

/* How many of the first `bits` bits of the block are 0. */
static unsigned count_free(u32 block, unsigned bits)
{
	unsigned free = 0;

	for (unsigned i = 0; i < bits; i++) {
		const u8 *bitmap = sector(2 * block + i / 4096);

		if (!bitmap)
			return 0xffffffff;
		unsigned bit = i % 4096;
		if (!(bitmap[bit / 8] >> (bit % 8) & 1))
			free++;
	}
	return free;
}

u64 check(const struct context *context)
{
	const struct super *super = sector(2);
	const struct group *group = sector(4);

	if (super == NULL || group == NULL)
		return 9;
	if (super->magic != 0xef53 || super->log_block_size != 0)
		return 1;
	if (super->blocks > context->sectors / 2 || super->blocks_per_group < super->blocks || super->inodes > 1024)
		return 2;

	unsigned free_blocks = count_free(group->block_bitmap, super->blocks - super->first_block);
	if (free_blocks != group->free_blocks || free_blocks != super->free_blocks) {
		report(free_blocks);
		return 3;
	}
	unsigned free_inodes = count_free(group->inode_bitmap, super->inodes);
	if (free_inodes != group->free_inodes || free_inodes != super->free_inodes) {
		report(free_inodes);
		return 4;
	}
	if (group->directories > super->inodes - free_inodes)
		return 5;
	return 0;
}
