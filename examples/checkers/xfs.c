/*
 * The free space of an xfs, on a device with sectors of 512 bytes.
 *
 *     crashbpf-cc xfs.c check xfs.bpf --sectors 32768 --large
 *     trace_log.py xfs/no_flush.trace no_flush.log --sectors 32768 --large
 *     crashbpf explore no_flush.log xfs.bpf --sectors 32768 --large --by write --cuts flush --guards
 *
 * The rules are those of 'XFS Algorithms & Data Structures', third edition, for file systems with checksums, as xfsprogs 6.1.0 has them.
 *
 * It tests the super block; of each allocation group the headers (AGF, AGI, AGFL), each with its checksum, its number and the UUID, which is
 * that of the metadata where the two are told apart (META_UUID); the list of free blocks; both trees of free extents, that they are in order,
 * don't overlap, lie in the group, and hold the same; and that blocks and inodes are as many as the counts of all groups say.
 *
 * Where the log is dirty, nothing is said but of the super block: a mount replays it first. It is clean where it was never written to, or
 * where its last record says that the file system was unmounted. So a log whose last record isn't whole is taken for a dirty one.
 *
 * With -D AS_REPAIR it tests the rest even then, and leaves out the list of free blocks, as xfs_repair -n does.
 *
 * Before the super block is whole, and says that mkfs.xfs is done, there is no file system: that is good up to the first mark.
 *
 * What it doesn't look at: inodes and their trees, directories, reverse mappings, shared extents, the rest of the log, what the super block
 * says of quotas and of a realtime volume without blocks, and of the super blocks of other groups all but their checksums. It takes blocks
 * of 1,024 to 4,096 bytes, sectors of 512, at most 16 groups, trees of one block each, and a log inside; no realtime volume, and no file
 * system that has to be repaired. Its answers:
 *
 *     1    no whole super block, after a mark
 *     2    not taken: another version, a feature, or a tree of more blocks
 *     3    sizes in the super block that don't fit one another or the device
 *     4    a header isn't whole, or not of its group
 *     5    the list of free blocks
 *     6    a tree's block isn't whole, or its extents are wrong
 *     7    the extents aren't as many blocks as the header says
 *     8    the groups together don't have what the super block says
 *     9    the log has no record, or cycles that it can't have
 *     255  a loop had too few turns
 *
 * The code of 4 to 7 is the byte of the device at which the header, the tree or the extent begins.
 *
 * Compared with xfs_repair -n of xfsprogs 6.1.0, with -D AS_REPAIR after a mark, on three file systems of 16 and 32 MiB, two with files:
 *
 *     300 mutants and these, most with sums made right          both pass 99, both fail 176, it alone fails 3, xfs_repair alone fails 25
 *
 * It alone fails on features of the log (3). xfs_repair alone fails on inodes (17), their lists of deleted ones (2) and the tree of the
 * free ones (1), on a log that a change makes dirty (3), on quotas (1), and on bytes of the super block that aren't in use (1).
 */
#include "checker.h"

#define GROUPS 16	/* allocation groups, at most */
#define RECORDS 505	/* of a block of 4,096 bytes */

enum answer { NO_SUPER = 1, NOT_TAKEN, SUPER, HEADER, FREE_LIST, TREE, COUNTS, TOTALS, NO_LOG };

#define XFSB 0x58465342
#define XAGF 0x58414746
#define XAGI 0x58414749
#define XAFL 0x5841464c
#define AB3B 0x41423342
#define AB3C 0x41423343
#define RECORD 0xfeedbabe	/* of the log */
#define UNMOUNT 0x20
#define NONE 0xffffffff		/* in place of a block's number */
#define META_UUID 4
#define KNOWN 0x2f		/* features that are taken: FTYPE, SPINODES, META_UUID, BIGTIME, NREXT64 */

/* What the super block says. */
static u64 block_size, blocks, group_blocks, groups, log_first, log_blocks, uuid[2];

/* Whether the CRC-32C of some bytes is the one that stands in them. */
LOCAL(check) u64 is_summed(u64 at, u64 bytes, u64 place)
{
	static const u32 no_sum;
	u64 crc = crc32c_part(CRC32C_START, at, place);

	crc = crc32c_memory_part(crc, &no_sum, sizeof no_sum);
	crc = crc32c_part(crc, at + place + 4, bytes - place - 4);
	return (u32)~crc == u32_at(at + place);
}

/* Whether metadata has the file system's UUID there. */
LOCAL(check) u64 is_ours(u64 at)
{
	return u64_at(at) == uuid[0] && u64_at(at + 8) == uuid[1];
}

/* The super block of the first group. */
INLINED u64 look_at_super(u64 sectors)
{
	u64 block_log = u8_at(120), inode_log = u8_at(122), group_log = u8_at(124), features = u32_at_be(216), log_group;

	block_size = u32_at_be(4);
	blocks = u64_at_be(8);
	group_blocks = u32_at_be(84);
	groups = u32_at_be(88);
	log_blocks = u32_at_be(96);
	if (u16_at_be(102) != 512 || (block_size != 1024 && block_size != 2048 && block_size != 4096) || groups > GROUPS || u64_at_be(16) || !u64_at_be(48)
	    || (u16_at_be(100) & 15) != 5 || (features & ~KNOWN) || u32_at_be(220))
		return NOT_TAKEN;
	if (block_log < 10 || block_log > 12 || block_size != 1ull << block_log || u8_at(121) != 9 || inode_log < 8 || inode_log > 11 || inode_log > block_log
	    || u16_at_be(104) != 1 << inode_log || u8_at(123) != block_log - inode_log || u16_at_be(106) != 1 << (block_log - inode_log))
		return SUPER;
	if (!groups || group_blocks < 64 || group_log > 31 || group_blocks > 1ull << group_log || 2 * group_blocks <= 1ull << group_log
	    || blocks > groups * group_blocks || blocks <= (groups - 1) * group_blocks || blocks > 512 * sectors / block_size)
		return SUPER;
	log_group = u64_at_be(48) >> group_log;
	log_first = log_group * group_blocks + (u64_at_be(48) & ((1ull << group_log) - 1));
	if (log_group >= groups || log_first + log_blocks > blocks)
		return SUPER;
	uuid[0] = u64_at(features & META_UUID ? 248 : 32);
	uuid[1] = u64_at(features & META_UUID ? 256 : 40);
	return 0;
}

/* The cycle of sector n of the log, which its first number is, or in front of a record its second. */
LOCAL(check) u64 cycle_of(u64 n)
{
	u64 at = log_first * block_size + 512 * n, first = u32_at_be(at);

	return first == RECORD ? u32_at_be(at + 4) : first;
}

/* The log is clean where it was never written to, or where its last record says that the file system was unmounted. */
enum log { CLEAN, DIRTY, NOT_A_LOG };

INLINED u64 state_of_log(void)
{
	u64 end = log_blocks * block_size / 512, head = 1, cycle = cycle_of(0), at;

	if (!cycle)
		return CLEAN;
	/* A log of which something was never written to has its first cycle. */
	if (!end || (cycle != 1 && !cycle_of(end - 1)))
		return NOT_A_LOG;
	for (; head < end && cycle_of(head) == cycle; head++)
		TURN(1 << 18, return NOT_A_LOG);
	for (u64 n = head; n > 0; n--) {
		TURN(520, return NOT_A_LOG);
		at = log_first * block_size + 512 * (n - 1);
		if (u32_at_be(at) != RECORD)
			continue;
		return u32_at_be(at + 40) == 1 && n + (u32_at_be(at + 12) + 511) / 512 == head && u8_at(at + 512 + 9) & UNMOUNT ? CLEAN : DIRTY;
	}
	return NOT_A_LOG;
}

/* The group that is looked at: its number, its first byte, its blocks. */
static u64 group, start, length;

/* The header of a tree's only block. */
LOCAL(check) u64 fault_of_root(u64 root, u64 levels, u64 magic)
{
	u64 at = start + root * block_size;

	if (levels > 1)
		return NOT_TAKEN;
	if (levels != 1 || root >= length || u32_at_be(at) != magic || u16_at_be(at + 4) || u16_at_be(at + 6) > (block_size - 56) / 8
	    || u32_at_be(at + 8) != NONE || u32_at_be(at + 12) != NONE || u64_at_be(at + 16) != at / 512 || !is_ours(at + 32)
	    || u32_at_be(at + 48) != group || !is_summed(at, block_size, 52)) {
		report(at);
		return TREE;
	}
	return 0;
}

/* Whether the extents of a tree have a block of the group. */
LOCAL(check) u64 has_block(u64 at, u64 records, u64 block)
{
	u64 low = 0, high = records;

	while (low < high) {
		u64 middle = (low + high) / 2, first = u32_at_be(at + 8 * middle);

		TURN(GROUPS * RECORDS * 16, return 1);
		if (block < first)
			high = middle;
		else if (block - first >= u32_at_be(at + 8 * middle + 4))
			low = middle + 1;
		else
			return 1;
	}
	return 0;
}

/* The trees of free extents, by block and by size, and what the header of the free space counts. */
INLINED u64 fault_of_free_space(u64 header)
{
	u64 by_block = u32_at_be(header + 16), by_size = u32_at_be(header + 20), records, free = 0, longest = 0, end = 0, last = 0;
	u64 fault = fault_of_root(by_block, u32_at_be(header + 28), AB3B), at = start + by_block * block_size + 56;
	u64 other = start + by_size * block_size + 56;

	if (!fault)
		fault = fault_of_root(by_size, u32_at_be(header + 32), AB3C);
	if (fault)
		return fault;
	records = u16_at_be(at - 50);
	for (u64 i = 0; i < records; i++) {
		u64 first = u32_at_be(at + 8 * i), count = u32_at_be(at + 8 * i + 4);

		TURN(GROUPS * RECORDS, return TURNS_SPENT);
		if (512 * 4 > first * block_size || first < end || !count || first + count > length) {
			report(at + 8 * i);
			return TREE;
		}
		end = first + count;
		free += count;
		longest = count > longest ? count : longest;
	}
	/* Extents of one size stand by their blocks. Each is an extent of the other tree, so of as many none is left out. */
	if (u16_at_be(other - 50) != records || free != u32_at_be(header + 52) || longest != u32_at_be(header + 56)) {
		report(header);
		return COUNTS;
	}
	for (u64 i = 0; i < records; i++) {
		u64 first = u32_at_be(other + 8 * i), count = u32_at_be(other + 8 * i + 4), low = 0, high = records;

		TURN(GROUPS * RECORDS, return TURNS_SPENT);
		while (low < high) {
			u64 middle = (low + high) / 2;

			TURN(GROUPS * RECORDS * 16, return TURNS_SPENT);
			if (u32_at_be(at + 8 * middle) < first)
				low = middle + 1;
			else
				high = middle;
		}
		if (low == records || u32_at_be(at + 8 * low) != first || u32_at_be(at + 8 * low + 4) != count || (i && (count << 32 | first) <= last)) {
			report(other + 8 * i);
			return TREE;
		}
		last = count << 32 | first;
	}
	if (has_block(at, records, by_block) || has_block(at, records, by_size)) {
		report(header);
		return TREE;
	}
	return 0;
}

/* The list of blocks that are kept for the trees. */
INLINED u64 fault_of_free_list(u64 header, u64 list)
{
	u64 first = u32_at_be(header + 40), last = u32_at_be(header + 44), count = u32_at_be(header + 48), size = (512 - 36) / 4;

	if (first >= size || last >= size || count > size || (count && (first + count - 1) % size != last) || (!count && (last + 1) % size != first)) {
		report(header);
		return FREE_LIST;
	}
	for (u64 i = 0; i < count; i++) {
		u64 block = u32_at_be(list + 36 + 4 * ((first + i) % size));

		TURN(GROUPS * 119, return TURNS_SPENT);
		if (512 * 4 > block * block_size || block >= length) {
			report(list);
			return FREE_LIST;
		}
	}
	return 0;
}

/* The headers of a group. */
INLINED u64 fault_of_headers(u64 header, u64 inodes, u64 list)
{
	if (group && (u32_at_be(start) != XFSB || !is_summed(start, 512, 224))) {
		report(start);
		return HEADER;
	}
	if (u32_at_be(header) != XAGF || u32_at_be(header + 4) != 1 || u32_at_be(header + 8) != group || u32_at_be(header + 12) != length
	    || !is_ours(header + 64) || !is_summed(header, 512, 216)) {
		report(header);
		return HEADER;
	}
	if (u32_at_be(inodes) != XAGI || u32_at_be(inodes + 4) != 1 || u32_at_be(inodes + 8) != group || u32_at_be(inodes + 12) != length
	    || !is_ours(inodes + 296) || !is_summed(inodes, 512, 312) || u32_at_be(inodes + 28) > u32_at_be(inodes + 16)) {
		report(inodes);
		return HEADER;
	}
#ifndef AS_REPAIR
	if (u32_at_be(list) != XAFL || u32_at_be(list + 4) != group || !is_ours(list + 8) || !is_summed(list, 512, 32)) {
		report(list);
		return HEADER;
	}
#endif
	return 0;
}

u64 check(const struct context *context)
{
	u64 free = 0, inodes = 0, free_inodes = 0, fault, log;

	/* mkfs.xfs writes it as the last, too: before that there is no file system. */
	if (u32_at_be(0) != XFSB || u8_at(126) || !is_summed(0, 512, 224))
		return context->marks ? NO_SUPER : 0;
	fault = look_at_super(context->sectors);
	if (fault)
		return fault;
	log = state_of_log();
	if (log == NOT_A_LOG)
		return NO_LOG;
#ifndef AS_REPAIR
	if (log == DIRTY)
		return 0;
#endif
	for (group = 0; group < groups; group++) {
		u64 header, own;

		TURN(GROUPS, return TURNS_SPENT);
		start = group * group_blocks * block_size;
		length = group + 1 < groups ? group_blocks : blocks - group * group_blocks;
		header = start + 512;
		own = start + 1024;
		fault = fault_of_headers(header, own, start + 1536);
#ifndef AS_REPAIR
		if (!fault)
			fault = fault_of_free_list(header, start + 1536);
#endif
		if (!fault)
			fault = fault_of_free_space(header);
		if (fault)
			return fault;
		free += u32_at_be(header + 52) + u32_at_be(header + 48) + u32_at_be(header + 60);
		inodes += u32_at_be(own + 16);
		free_inodes += u32_at_be(own + 28);
	}
	return inodes == u64_at_be(128) && free_inodes == u64_at_be(136) && free == u64_at_be(144) ? 0 : TOTALS;
}

#ifdef CHECKER_NATIVE
/* The sum of some bytes of which four at `place` hold it. */
static void mend(u8 *image, u64 at, u64 bytes, u64 place)
{
	u32 sum;

	memset(image + at + place, 0, 4);
	sum = ~crc32c_memory(CRC32C_START, image + at, bytes);
	memcpy(image + at + place, &sum, 4);
}

/* Those of the super blocks, the headers, and the trees of free extents. */
void mend_sums(u8 *image, u64 bytes)
{
	u64 size = u32_at_be(4), count = u32_at_be(88), own = u32_at_be(84);

	mend(image, 0, 512, 224);
	if (look_at_super(bytes / 512))
		return;
	for (u64 i = 0; i < count; i++) {
		u64 at = i * own * size;

		mend(image, at, 512, 224);
		mend(image, at + 512, 512, 216);
		mend(image, at + 1024, 512, 312);
		mend(image, at + 1536, 512, 32);
		for (u64 tree = 16; tree <= 20; tree += 4) {
			u64 root = at + u32_at_be(at + 512 + tree) * size;

			if (root <= bytes - size && (u32_at_be(root) == AB3B || u32_at_be(root) == AB3C))
				mend(image, root, size, 52);
		}
	}
}
#endif
