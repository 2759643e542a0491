/*
 * A block of directory entries as ext2 has them, in sector 3: number of the inode, length of
 * the entry, length of the name, type. The entries fill the block, each holds its name.
 */
#include "checker.h"

struct entry {
	u32 inode;
	u16 length;
	u8 name_length, type;
};

u64 check(const struct context *context)
{
	struct entry entry;

	for (u64 at = 0; at < 512; at += entry.length) {
		TURN(64, return TURNS_SPENT);
		if (at > 512 - sizeof entry || copy(3 * 512 + at, &entry, sizeof entry))
			return 1;
		if (entry.length < 8 || entry.length % 4 != 0 || entry.length > 512 - at)
			return 2;
		if (entry.name_length + 8 > entry.length)
			return 3;
		if (entry.inode != 0 && entry.type > 7)
			return 4;
	}
	return 0;
}
