/* A checker for an f2fs that was formatted within the log: once it was told that it is there, one of its two checkpoints is whole.
 * A checkpoint begins and ends with a block of one version, each with its CRC-32, and mount takes the newer whole one.
 *
 *     crashbpf-cc f2fs.c check f2fs.bpf --sectors 2097152 --large
 *     crashbpf explore writes.log f2fs.bpf --sectors 2097152 --large --guards --by write --bound any
 *
 * It looks at nothing else: fsck.f2fs finds more. */
#include "checker.h"

enum { GOOD, NO_SUPER, OTHER_SIZES, NO_CHECKPOINT };

#define MAGIC 0xf2f52010
#define BLOCK 4096
#define SUPER 1024

/* The version of a block of a checkpoint, or 0 where it isn't whole. */
INLINED u64 version_of(u64 at)
{
	if (u32_at(at + 164) != BLOCK - 4 || crc32_at(MAGIC, at, BLOCK - 4) != u32_at(at + BLOCK - 4))
		return 0;
	return u64_at(at);
}

/* The version of a checkpoint, or 0 where it isn't whole. */
INLINED u64 checkpoint_of(u64 at)
{
	u64 blocks = u32_at(at + 136), version = version_of(at);

	if (!version || !blocks || blocks > 512)
		return 0;
	return version_of(at + BLOCK * (blocks - 1)) == version ? version : 0;
}

u64 check(const struct context *context)
{
	u64 first = BLOCK * (u64)u32_at(SUPER + 76);

	if (!context->marks)
		return GOOD;                                /* nothing was promised yet */
	if (u32_at(SUPER) != MAGIC)
		return NO_SUPER;
	if (u32_at(SUPER + 16) != 12 || u32_at(SUPER + 20) != 9)
		return OTHER_SIZES;                         /* log2 of a block, and of the blocks of a segment */
	if (!checkpoint_of(first) && !checkpoint_of(first + 512 * BLOCK))
		return NO_CHECKPOINT;
	return GOOD;
}
