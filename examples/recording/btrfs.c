/* A checker for a btrfs that was formatted within the log: once it was told that it is there, its super block is whole, and the
 * roots of the trees that it names are there, of its own generation or an older one, with their CRC-32C. A btrfs that wrote its
 * super block without a flush of the trees before would fail.
 *
 *     crashbpf-cc btrfs.c check btrfs.bpf --sectors 2097152 --large
 *     crashbpf explore writes.log btrfs.bpf --sectors 2097152 --large --guards --by write --bound any
 *
 * A tree is looked for in the first copy of its chunk, and by a chunk tree of one leaf. btrfs check finds more. */
#include "checker.h"

enum { GOOD, NO_SUPER, OTHER_SIZES, BROKEN_SUPER, NO_CHUNK, BROKEN_CHUNKS, TALL_CHUNKS, BROKEN_ROOT, BROKEN_LOG };

#define SUPER 65536
#define NODE 16384                     /* the bytes of a node of a tree, as mkfs.btrfs takes them */
#define MAGIC 0x4d5f53665248425f        /* _BHRfS_M */
#define NONE ((u64)-1)

/* Whether the CRC-32C of some bytes stands in front of them, in 32. */
INLINED u64 has_sum(u64 at, u64 size)
{
	return (u32)~crc32c_at(CRC32C_START, at + 32, size - 32) == u32_at(at);
}

/* Where a logical address lies, by a chunk that begins at `logical`; or NONE. */
INLINED u64 within(u64 address, u64 logical, u64 chunk)
{
	return address - logical < u64_at(chunk) ? u64_at(chunk + 56) + (address - logical) : NONE;
}

/* Whether the root of a tree is whole: its sum, its address, and a generation that is no later. */
INLINED u64 is_whole(u64 at, u64 address, u64 generation)
{
	return has_sum(at, NODE) && u64_at(at + 48) == address && u64_at(at + 80) <= generation;
}

/* Where a logical address lies, by the leaf of the chunk tree; or NONE. */
LOCAL(check) u64 place_of(u64 address, u64 chunks)
{
	u64 items = u32_at(chunks + 96);

	for (u64 i = 0; i < items && i < 64; i++) {
		u64 item = chunks + 101 + 25 * i, at;

		TURN(128, return NONE);
		if (u8_at(item + 8) != 228)
			continue;                           /* no chunk */
		at = within(address, u64_at(item + 9), chunks + 101 + u32_at(item + 17));
		if (at != NONE)
			return at;
	}
	return NONE;
}

u64 check(const struct context *context)
{
	u64 generation = u64_at(SUPER + 72);
	u64 root = u64_at(SUPER + 80), chunk_root = u64_at(SUPER + 88), log_root = u64_at(SUPER + 96);
	u64 chunks, at;

	if (!context->marks)
		return GOOD;                                /* nothing was promised yet */
	if (u64_at(SUPER + 64) != MAGIC)
		return NO_SUPER;
	if (u32_at(SUPER + 148) != NODE)
		return OTHER_SIZES;
	if (!has_sum(SUPER, 4096))
		return BROKEN_SUPER;
	chunks = within(chunk_root, u64_at(SUPER + 820), SUPER + 828);
	if (chunks == NONE)
		return NO_CHUNK;
	if (!is_whole(chunks, chunk_root, generation))
		return BROKEN_CHUNKS;
	if (u8_at(chunks + 100))
		return TALL_CHUNKS;
	at = place_of(root, chunks);
	report(root);
	if (at == NONE || !is_whole(at, root, generation))
		return BROKEN_ROOT;
	if (!log_root)
		return GOOD;
	at = place_of(log_root, chunks);
	report(log_root);
	return at == NONE || !is_whole(at, log_root, generation + 1) ? BROKEN_LOG : GOOD;
}
