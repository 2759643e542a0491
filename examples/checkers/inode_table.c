/* Sectors 2 to 9 have four inodes each. One that is in use has links, and data if it has a size. */
#include "checker.h"

struct inode {
	u16 mode, links;
	u32 size, block;
};

u64 check(const struct context *context)
{
	for (u64 sector_number = 2; sector_number < 10; sector_number++) {
		TURN(8, return TURNS_SPENT);
		for (u64 i = 0; i < 4; i++) {
			struct inode inode;

			TURN(8 * 4, return TURNS_SPENT);
			if (copy(512 * sector_number + 128 * i, &inode, sizeof inode))
				return 1;
			if (inode.mode == 0)
				continue;
			if (inode.links == 0)
				return 2;
			if (inode.size != 0 && inode.block >= context->sectors)
				return 3;
		}
	}
	return 0;
}
