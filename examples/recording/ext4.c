/* A checker for a device that mkfs.ext4 makes: once it was told that the file system is there, its super block, the
 * descriptor of its first group and the inode of its root directory have to be. docs/RECORDING.md records such a device.
 * For one group, blocks of 1,024 bytes and checksums (metadata_csum), as mkfs.ext4 takes them for 8 MiB.
 *
 * It shows how a recording is judged, and is no checker to trust: it replays no journal, looks at nothing else, and misses what
 * e2fsck finds. Of an ext4 without barriers it failed on none of the 596 images that e2fsck called broken. */
#include "checker.h"

enum { GOOD, NO_MAGIC, OTHER_SIZES, BROKEN_SUPER, BROKEN_GROUP, NO_ROOT };

#define BLOCK 1024                                 /* the super block is block 1, the descriptors are block 2 */
#define SUPER BLOCK
#define GROUP (2 * BLOCK)
#define SPENT (1ull << 32)

/* The crc of `count` bytes more, from a position on: 1,098 bytes in all, of all calls together. */
LOCAL(check) u64 crc_of(u64 crc, u64 position, u64 count)
{
	for (u64 i = 0; i < count; i++) {
		TURN(1098, return SPENT);
		crc = crc32c(crc, u8_at(position + i));
	}
	return crc;
}

u64 check(const struct context *context)
{
	u64 table = BLOCK * (u64)u32_at(GROUP + 8);        /* where the inodes of the first group begin */
	u64 size = u16_at(SUPER + 254);                    /* of a descriptor */
	u64 crc;

	if (!context->marks)
		return GOOD;                               /* nothing was promised yet */
	if (u16_at(SUPER + 56) != 0xef53)
		return NO_MAGIC;
	if (u32_at(SUPER + 24) || size != 64)
		return OTHER_SIZES;                        /* log2 of the block's size, less 10 */
	crc = crc_of(CRC32C_START, SUPER, 1020);
	if (crc == SPENT)
		return TURNS_SPENT;
	if (crc != u32_at(SUPER + 1020))
		return BROKEN_SUPER;
	/* of the file system's name, the number of the group, and its descriptor with zeros for the sum itself */
	crc = crc_of(CRC32C_START, SUPER + 104, 16);
	crc = crc32c(crc32c(crc32c(crc32c(crc, 0), 0), 0), 0);
	crc = crc_of(crc, GROUP, 30);
	crc = crc_of(crc32c(crc32c(crc, 0), 0), GROUP + 32, 32);
	if (crc == SPENT)
		return TURNS_SPENT;
	if ((crc & 0xffff) != u16_at(GROUP + 30))
		return BROKEN_GROUP;
	if (u16_at(table + u16_at(SUPER + 88)) >> 12 != 4) {
		report(table);                             /* inode 2, the root, is no directory */
		return NO_ROOT;
	}
	return GOOD;
}
