/*
 * An ext4 with a journal, from sector 0 on, as a mount finds it after a crash.
 *
 *     crashbpf-cc ext4.c check ext4.bpf --sectors 4096
 *     trace_log.py ext4/no_flush.trace no_flush.log --sectors 4096
 *     crashbpf explore no_flush.log ext4.bpf --sectors 4096 --from 6 --by write --cuts mark --guards
 *
 * The format is that of Linux' Documentation/filesystems/ext4, with its page on the journal (jbd2).
 *
 * It does what recovery does. It reads the super block, finds the journal by its inode, and replays it: descriptor blocks with tags
 * of each size (of 64 bits or not, checksums of version 2, 3 or none), revoke blocks and commit blocks, up to the first transaction
 * without a commit block. A block is then the journal's last copy of it, unless a later transaction revoked it. It reads the super
 * block once more. Then it tests
 *
 *     the checksums of the super block, of groups (crc32c or crc16), bitmaps, inodes, extents, directories and their indexes
 *     the group descriptors: places, counts of free blocks, free inodes and directories
 *     each inode in use: its type, its times of deletion, its extents or block numbers, how many blocks it has, its size
 *     that each block is used once, and that the bitmap of blocks says just that; the bitmap of inodes alike
 *     each directory: its entries, names, types, `.` and `..`; that each directory has one entry and is reached from the root
 *     the number of links of each inode; the list of orphans, which a mount deletes or cuts
 *
 * Taken are blocks of 1, 2 and 4 KiB, at most 8,192 blocks, 64 groups, 2,048 inodes of 128 bytes or more, and a journal of at most
 * 4,096 blocks whose extents stand in its inode; these features: has_journal or none, extent, 64bit, flex_bg, filetype,
 * metadata_csum, metadata_csum_seed, uninit_bg, sparse_super, resize_inode, dir_index, huge_file, large_file, dir_nlink,
 * extra_isize, ext_attr. Files with block numbers in place of extents are taken too. Anything else has the answer 3: other features,
 * as fast_commit, orphan_file, inline_data, bigalloc, meta_bg, quota, encrypt, casefold; the journal's async_commit and checksums of
 * version 1; a block of extended attributes; an escaped block of the journal that is no data.
 *
 * What it doesn't look at: the bytes of files, and of the attributes in inodes; the order of hashes in an index of a directory;
 * equal names; copies of the super block and of the descriptors; the numbers of free blocks and inodes in the super block, which a
 * mount counts anew; times, owners, most flags of inodes; and whether what was acknowledged is there. Its answers:
 *
 *     1    no super block, or one with numbers that don't go together     11   a block that is outside, or used twice (its number)
 *     2    the super block's checksum                                     12   a size, or a number of blocks
 *     3    not taken                                                      13   the checksum of a block of a directory
 *     4    the journal's super block or its inode                         14   an entry of a directory
 *     5    a checksum in a transaction with a commit block (the block)    15   `..`, a second entry, or none, of a directory
 *     6    a group's descriptor                                           16   the number of links, or an entry of an unused inode
 *     7    the checksum of a bitmap                                       17   the bitmap of blocks (a block near)
 *     8    the checksum of an inode                                       18   the bitmap of inodes
 *     9    an inode                                                       19   the counts of a group
 *     10   extents or block numbers                                       20   the list of orphans
 *     255  a loop had too few turns
 *
 * The last code is the inode, or of 6, 7 and 19 the group.
 *
 * Compared with e2fsck 1.47.0, on a copy of each image: -y -E journal_only, which replays the journal and deletes orphans, then -fn.
 * e2fsck finds a fault where either status isn't 0, or where it says that it mended something, or that a checksum of the journal is
 * wrong: of the images without barriers it says the last of 99, and ends with 0.
 *
 *     19 file systems of 1 to 8 MiB, of all that is taken             both pass all
 *     900 of these, each with one field damaged                       both pass 130, both fail 752, each alone fails 9
 *     300 of the 1,184 images of right, as it was recorded, bound 2   both pass 300 by write; 289 by sector, and both fail 11
 *     300 of 19,445 of a recording without barriers                   both pass 110, both fail 190
 *     300 of 23,912 of no_flush, 300 of 2,599 of in_place, bound 2    both pass 70, fail 230; both pass 169, fail 131
 *     300 of 2,175 of a recording with orphans                        both pass 300
 *
 * It alone fails where a node of extents has another depth than its place (7), and where an empty journal begins or ends nowhere
 * (2): Linux takes neither. e2fsck alone fails on a count of unused inodes that no feature asks for (4), the number of users of the
 * journal (3), that of reserved blocks (1), and a mark of a file system for tests (1). By sector the super block may be torn. A
 * mount refuses it then, and one group has no copy.
 *
 * What a program of clang 14 and of gcc 12 answers is what the native build answers, on 300 of the damaged images; of clang on the
 * 1,800 images of logs too.
 */
#include "checker.h"

#define BLOCKS 8192
#define INODES 2048
#define GROUPS 64
#define JOURNAL_BLOCKS 4096

enum answer {
	NO_SUPER = 1, SUPER_CHECKSUM, NOT_TAKEN, JOURNAL, JOURNAL_CHECKSUM, GROUP, BITMAP_CHECKSUM, INODE_CHECKSUM,
	INODE, TREE, BLOCK, SIZES, DIRECTORY_CHECKSUM, ENTRY, PARENT, LINKS, BLOCK_BITMAP, INODE_BITMAP, COUNTS, ORPHANS,
};

/* Features: those that are taken, and those that change what is looked at. */
#define COMPAT_TAKEN 0x3f
#define INCOMPAT_TAKEN (FILETYPE | RECOVER | EXTENTS | BITS_64 | 0x200 | CHECKSUM_SEED)
#define RO_COMPAT_TAKEN (SPARSE_SUPER | 0x2 | HUGE_FILE | GROUP_CHECKSUM | 0x20 | 0x40 | CHECKSUMS)
#define HAS_JOURNAL 0x4
#define FILETYPE 0x2
#define RECOVER 0x4
#define EXTENTS 0x40
#define BITS_64 0x80
#define CHECKSUM_SEED 0x2000
#define SPARSE_SUPER 0x1
#define HUGE_FILE 0x8
#define GROUP_CHECKSUM 0x10
#define CHECKSUMS 0x400

#define ROOT 2
#define RESIZE 7
#define JOURNAL_INODE 8
#define FIRST_INODE 11
#define DIRECTORY 2
#define REGULAR 1
#define SYMLINK 7

static struct volume {
	u64 bits, size;			/* of a block */
	u64 first, blocks;		/* the first block that is counted, and the end */
	u64 per_group, groups, reserved;
	u64 inodes, inodes_per_group, inode_size, descriptor_size;
	u64 compat, incompat, ro_compat;
	u32 seed;			/* of the checksums */
} v;

struct entry {
	u32 inode;
	u16 length;
	u8 name_length, type;
};

/* The journal's last copy of each block, with ESCAPED, or 0; the transaction that last revoked it, counted from 1; where the
 * journal's blocks are. */
#define ESCAPED 0x8000
static u16 moved[BLOCKS], revoked[BLOCKS], journal_at[JOURNAL_BLOCKS];
static u8 super[1024];
/* Of blocks, counted from the first one: a bit for each that something uses. */
static u64 used[BLOCKS / 64 + 1];
/* Of inodes: the entries that name it less the links that it counts, the directory that has an entry for it, its own `..`;
 * what it is, and what its entry says. */
static u16 links[INODES + 1], parent[INODES + 1], above[INODES + 1];
static u8 types[INODES + 1], said[INODES + 1];
#define ORPHAN 0x10
#define TYPE 0x0f
#define CONNECTED 0x20
/* The way down a tree of extents or of block numbers: of each level the node, the next entry, and the end. */
static u64 node[5], next_entry[5], entries[5];
/* An escaped block of the journal was read for metadata. */
static u64 escaped;

/* The position of a block as recovery leaves it. */
LOCAL(check) u64 place(u64 block)
{
	u64 copy_of = block < BLOCKS ? moved[block] : 0;

	if (copy_of & ESCAPED)
		escaped = 1;
	copy_of &= ESCAPED - 1;
	return (copy_of ? copy_of : block) << v.bits;
}

LOCAL(check) u32 with_number(u32 crc, u32 number)
{
	return crc32c_memory_part(crc, &number, 4);
}

/* The super block, as it stands in `super`. */
LOCAL(check) u64 super_fault(u64 sectors)
{
	u64 log = u32_in(super + 0x18);

	if (u16_in(super + 0x38) != 0xef53)
		return NO_SUPER;
	v.compat = u32_in(super + 0x5c);
	v.incompat = u32_in(super + 0x60);
	v.ro_compat = u32_in(super + 0x64);
	if (v.ro_compat & CHECKSUMS && (u32)crc32c_memory_part(CRC32C_START, super, 1020) != u32_in(super + 1020))
		return SUPER_CHECKSUM;
	if (v.compat & ~(u64)COMPAT_TAKEN || v.incompat & ~(u64)INCOMPAT_TAKEN || v.ro_compat & ~(u64)RO_COMPAT_TAKEN
	    || ~v.incompat & (FILETYPE | EXTENTS) || u32_in(super + 0x4c) != 1 || u32_in(super + 0x54) != FIRST_INODE) {
		report(v.compat & ~(u64)COMPAT_TAKEN);
		report(v.incompat & ~(u64)INCOMPAT_TAKEN);
		report(v.ro_compat & ~(u64)RO_COMPAT_TAKEN);
		return NOT_TAKEN;
	}
	if (log > 2)
		return log > 6 ? NO_SUPER : NOT_TAKEN;
	v.bits = 10 + log;
	v.size = 1024ull << log;
	v.first = log == 0;
	v.blocks = u32_in(super + 0x4);
	v.per_group = u32_in(super + 0x20);
	v.inodes_per_group = u32_in(super + 0x28);
	v.inodes = u32_in(super);
	v.inode_size = u16_in(super + 0x58);
	v.descriptor_size = v.incompat & BITS_64 ? u16_in(super + 0xfe) : 32;
	v.reserved = v.compat & 0x10 ? u16_in(super + 0xce) : 0;
	v.seed = v.incompat & CHECKSUM_SEED ? u32_in(super + 0x270) : (u32)crc32c_memory_part(CRC32C_START, super + 0x68, 16);
	if (u32_in(super + 0x14) != v.first || v.blocks <= v.first || v.blocks << v.bits > 512 * sectors
	    || (v.incompat & BITS_64 && u32_in(super + 0x150)) || v.per_group == 0 || v.per_group > 8 * v.size || v.per_group % 8
	    || v.inodes_per_group == 0 || v.inodes_per_group > 8 * v.size || v.inodes_per_group % 8
	    || v.inode_size < 128 || v.inode_size > v.size || v.inode_size & (v.inode_size - 1)
	    || (u16_in(super + 0x15c) | u16_in(super + 0x15e)) & 3
	    || u16_in(super + 0x15c) > v.inode_size - 128 || u16_in(super + 0x15e) > v.inode_size - 128 || super[0x174] > 31
	    || v.reserved > v.size / 4 || u32_in(super + 0x1c) != log || u32_in(super + 0x24) != v.per_group)
		return NO_SUPER;
	v.groups = (v.blocks - v.first + v.per_group - 1) / v.per_group;
	if (v.blocks > BLOCKS || v.groups > GROUPS || v.inodes > INODES || v.per_group % 64
	    || (v.descriptor_size != 32 && v.descriptor_size != 64))
		return NOT_TAKEN;
	return v.inodes == v.groups * v.inodes_per_group ? 0 : NO_SUPER;
}

/* The position of the descriptor of a group. */
LOCAL(check) u64 descriptor_at(u64 group)
{
	u64 at = group * v.descriptor_size;

	return place(v.first + 1 + (at >> v.bits)) + (at & (v.size - 1));
}

/* A number of a descriptor, whose upper half stands elsewhere. */
LOCAL(check) u64 number_at(u64 at, u64 low, u64 high)
{
	return u16_at(at + low) | (v.descriptor_size == 64 ? (u64)u16_at(at + high) << 16 : 0);
}

LOCAL(check) u64 block_at(u64 at, u64 low)
{
	return u32_at(at + low) | (v.descriptor_size == 64 ? (u64)u32_at(at + low + 0x20) << 32 : 0);
}

/* Finds the journal's blocks: those of the extents in its inode. */
LOCAL(check) u64 find_journal(void)
{
	u64 number = (JOURNAL_INODE - 1) * v.inode_size, at, count, end, n = 0;

	at = place(block_at(descriptor_at(0), 0x8) + (number >> v.bits)) + (number & (v.size - 1));
	count = u16_at(at + 0x2a);
	end = u32_at(at + 4) >> v.bits;
	if (u16_at(at + 0x28) != 0xf30a || !(u32_at(at + 0x20) & 0x80000) || count > 4 || u16_at(at + 0x1a) != 1)
		return JOURNAL;
	if (u16_at(at + 0x2e) || end > JOURNAL_BLOCKS)
		return NOT_TAKEN;
	for (u64 extent = at + 0x34; n < end; extent += 12) {
		u64 length = u16_at(extent + 4), physical = u32_at(extent + 8) | (u64)u16_at(extent + 6) << 32;

		TURN(5, return TURNS_SPENT);
		if (count-- == 0 || u32_at(extent) != n || length == 0 || length > end - n || physical <= v.first
		    || physical + length > v.blocks)
			return JOURNAL;
		for (length += n; n < length; n++) {
			TURN(JOURNAL_BLOCKS, return TURNS_SPENT);
			journal_at[n] = physical++;
		}
	}
	return 0;
}

#define JOURNAL_MAGIC 0xc03b3998
enum { DESCRIPTOR = 1, COMMIT = 2, REVOKE = 5 };
enum { SCAN, REVOCATIONS, REPLAY };
#define IS_64 0x2
#define ASYNC 0x4
#define SUMS_2 0x8
#define SUMS_3 0x10

/* Whether the checksum at the end of a descriptor or revoke block is right. */
LOCAL(check) u64 tail_is_right(u64 at, u32 seed)
{
	return with_number(crc32c_part(seed, at, v.size - 4), 0) == u32_at_be(at + v.size - 4);
}

/* What recovery makes of the journal: `moved` gets the last copies. */
LOCAL(check) u64 replay(void)
{
	u64 at = (u64)journal_at[0] << v.bits, end_of_log = u32_at_be(at + 0x10), first = u32_at_be(at + 0x14);
	u64 start = u32_at_be(at + 0x1c), features = u32_at_be(at + 0x28), sums = features & (SUMS_2 | SUMS_3);
	u64 tag_size = (sums & SUMS_3 ? 16 : (sums ? 14 : 12) - (features & IS_64 ? 0 : 4));
	u64 tail = sums ? 4 : 0, number_size = features & IS_64 ? 8 : 4;
	u32 sequence = u32_at_be(at + 0x18), seed = crc32c_part(CRC32C_START, at + 0x30, 16);
	u64 pass = SCAN, passed = 0, end = ~0ull, next = start, stale = 0, last_time = 0;

	if (u32_at_be(at) != JOURNAL_MAGIC || u32_at_be(at + 4) != 4 || u32_at_be(at + 0xc) != v.size
	    || first == 0 || end_of_log <= first || end_of_log > JOURNAL_BLOCKS || !journal_at[end_of_log - 1])
		return JOURNAL;
	if (u32_at_be(at + 0x24) & 1 || features & ~(u64)(0x1 | IS_64 | SUMS_2 | SUMS_3) || u32_at_be(at + 0x2c)
	    || sums == (SUMS_2 | SUMS_3)) {
		report(features);
		return NOT_TAKEN;
	}
	if (sums) {
		u32 sum = with_number(crc32c_part(CRC32C_START, at, 0xfc), 0);

		if ((u32)crc32c_part(sum, at + 0x100, 0x300) != u32_at_be(at + 0xfc) || u8_at(at + 0x50) != 4)
			return JOURNAL;
	}
	if (start == 0)
		return 0;
	/* a mount would throw the journal away */
	if (!(v.incompat & RECOVER) || start < first || start >= end_of_log)
		return JOURNAL;
	for (;;) {
		u64 kind = 0, time;

		TURN(3 * JOURNAL_BLOCKS, return TURNS_SPENT);
		at = (u64)journal_at[next] << v.bits;
		if (passed != end && u32_at_be(at) == JOURNAL_MAGIC && u32_at_be(at + 8) == (u32)(sequence + passed))
			kind = u32_at_be(at + 4);
		if (++next == end_of_log)
			next = first;
		if (kind == DESCRIPTOR) {
			u64 tag = at + 12, flags;

			if (sums && !tail_is_right(at, seed)) {
				/* left over from an earlier lap, unless a commit block follows */
				if (pass != SCAN)
					return JOURNAL_CHECKSUM;
				stale = 1;
			}
			do {
				u64 block, copy_at = (u64)journal_at[next] << v.bits, number = next;

				TURN(4 * JOURNAL_BLOCKS, return TURNS_SPENT);
				if (tag + tag_size > at + v.size - tail)
					break;
				flags = u16_at_be(tag + 6);
				block = u32_at_be(tag) | (features & IS_64 ? (u64)u32_at_be(tag + 8) << 32 : 0);
				if (++next == end_of_log)
					next = first;
				if (pass == REPLAY) {
					if (block >= v.blocks)
						return JOURNAL;
					if (revoked[block] <= passed) {
						u32 sum = with_number(seed, __builtin_bswap32(sequence + passed));

						sum = crc32c_part(sum, copy_at, v.size);
						if (sums & SUMS_3 ? sum != u32_at_be(tag + 12) : sums && (u16)sum != u16_at_be(tag + 4)) {
							report(block);
							return JOURNAL_CHECKSUM;
						}
						moved[block] = journal_at[number] | (flags & 1 ? ESCAPED : 0);
					}
				}
				tag += tag_size + (flags & 2 ? 0 : 16);
			} while (!(flags & 8));
		} else if (kind == COMMIT) {
			time = u64_at_be(at + 0x30);
			if (pass == SCAN && sums) {
				u32 sum = with_number(crc32c_part(seed, at, 0x10), 0);

				if (stale || (u32)crc32c_part(sum, at + 0x14, v.size - 0x14) != u32_at_be(at + 0x10)) {
					/* an earlier lap has earlier times; else the journal is broken, and isn't taken */
					if (time >= last_time)
						return JOURNAL_CHECKSUM;
					end = passed;
					continue;
				}
				last_time = time;
			}
			passed++;
		} else if (kind == REVOKE) {
			u64 record = at + 16, record_end = at + u32_at_be(at + 12);

			if (pass == SCAN && sums && !tail_is_right(at, seed))
				stale = 1;
			if (pass == REVOCATIONS && record_end > at + v.size - tail)
				return JOURNAL;
			for (; pass == REVOCATIONS; record += number_size) {
				u64 block;

				TURN(4 * JOURNAL_BLOCKS, return TURNS_SPENT);
				if (record + number_size > record_end)
					break;
				block = u64_at_be(record);
				block = features & IS_64 ? block : block >> 32;
				if (block < BLOCKS)
					revoked[block] = passed + 1;
			}
		} else {
			if (pass == SCAN && end == ~0ull)
				end = passed;
			if (passed != end)
				return JOURNAL;
			if (pass++ == REPLAY)
				return 0;
			passed = 0;
			next = start;
		}
	}
}

/* Notes that blocks in a row are in use. */
LOCAL(check) u64 take(u64 block, u64 count)
{
	u64 n = block - v.first;

	if (block < v.first || block >= v.blocks || count > v.blocks - block)
		return BLOCK;
	while (count) {
		u64 bits = count < 64 - n % 64 ? count : 64 - n % 64, mask = (~0ull >> (64 - bits)) << n % 64;

		TURN(4 * BLOCKS, return TURNS_SPENT);
		if (used[n / 64] & mask)
			return BLOCK;
		used[n / 64] |= mask;
		n += bits;
		count -= bits;
	}
	return 0;
}

/* Whether a block is noted already. */
LOCAL(check) u64 is_taken(u64 block)
{
	u64 n = block - v.first;

	return block >= v.first && block < v.blocks && used[n / 64] >> n % 64 & 1;
}

/* CRC-16 of the descriptors, where there are no other checksums: x^16 + x^15 + x^2 + 1, turned round. */
INLINED u64 crc16(u64 crc, u64 byte)
{
	crc ^= byte;
	UNROLLED_
	for (u64 bit = 0; bit < 8; bit++)
		crc = crc >> 1 ^ (0xa001 & -(crc & 1));
	return crc;
}

INLINED u64 descriptor_sum(u64 group, u64 at)
{
	u64 sum = 0xffff;

	if (v.ro_compat & CHECKSUMS) {
		u16 nothing = 0;

		sum = crc32c_part(with_number(v.seed, group), at, 0x1e);
		sum = crc32c_memory_part(sum, &nothing, 2);
		if (v.descriptor_size > 32)
			sum = crc32c_part(sum, at + 0x20, v.descriptor_size - 0x20);
		return (u16)sum;
	}
	for (u64 i = 0; i < 20 + v.descriptor_size; i++) {
		TURN(GROUPS * 84, return 1 << 16);
		if (i != 20 + 0x1e && i != 20 + 0x1f)
			sum = crc16(sum, i < 16 ? super[0x68 + i] : i < 20 ? (u8)(group >> 8 * (i - 16)) : u8_at(at + i - 20));
	}
	return sum;
}

/* Whether a group has a copy of the super block and of the descriptors. */
INLINED u64 has_super(u64 group)
{
	if (group < 2 || !(v.ro_compat & SPARSE_SUPER))
		return 1;
	return group == 3 || group == 5 || group == 7 || group == 9 || group == 25 || group == 27 || group == 49;
}

/* The groups: their descriptors, the blocks of their tables, the checksums of their bitmaps. */
LOCAL(check) u64 look_at_groups(void)
{
	for (u64 group = 0; group < v.groups; group++) {
		u64 at = descriptor_at(group), flags = u16_at(at + 0x12);
		u64 bitmap = block_at(at, 0), inode_bitmap = block_at(at, 4), table = block_at(at, 8);
		u64 of_table = (v.inodes_per_group * v.inode_size + v.size - 1) >> v.bits;
		u64 head = v.first + group * v.per_group;
		u64 of_head = has_super(group)
			? 1 + ((v.groups * v.descriptor_size + v.size - 1) >> v.bits) + v.reserved : 0;
		u64 fault = 0;

		TURN(GROUPS, return TURNS_SPENT);
		if (v.ro_compat & (CHECKSUMS | GROUP_CHECKSUM) && descriptor_sum(group, at) != u16_at(at + 0x1e)) {
			report(group);
			return GROUP;
		}
		for (u64 i = 0; i < of_head + of_table + 2; i++) {
			u64 block = i < of_head ? head + i : i == of_head ? bitmap : i == of_head + 1 ? inode_bitmap : table + i - of_head - 2;

			TURN(BLOCKS + 1, return TURNS_SPENT);
			if (take(block, 1)) {
				report(group);
				return GROUP;
			}
		}
		if (!(v.ro_compat & CHECKSUMS))
			continue;
		if (!(flags & 2)) {
			u32 sum = crc32c_part(v.seed, place(bitmap), v.per_group / 8);

			fault |= v.descriptor_size == 64 ? sum != number_at(at, 0x18, 0x38) : (u16)sum != u16_at(at + 0x18);
		}
		if (!(flags & 1)) {
			u32 sum = crc32c_part(v.seed, place(inode_bitmap), v.inodes_per_group / 8);

			fault |= v.descriptor_size == 64 ? sum != number_at(at, 0x1a, 0x3a) : (u16)sum != u16_at(at + 0x1a);
		}
		if (fault) {
			report(group);
			return BITMAP_CHECKSUM;
		}
	}
	return 0;
}

/* The position of an inode, or 0 where its group says that it was never used. */
INLINED u64 inode_at(u64 inode)
{
	u64 group = (inode - 1) / v.inodes_per_group, number = (inode - 1) % v.inodes_per_group;
	u64 at = descriptor_at(group), offset = number * v.inode_size;

	if (v.ro_compat & (CHECKSUMS | GROUP_CHECKSUM)
	    && (u16_at(at + 0x12) & 1 || number >= v.inodes_per_group - number_at(at, 0x1c, 0x32)))
		return 0;
	return place(block_at(at, 8) + (offset >> v.bits)) + (offset & (v.size - 1));
}

/* Whether the first 128 bytes of an inode are zeros. */
INLINED u64 is_empty(u64 at)
{
	static u64 words[16];
	u64 all = 0;

	copy(at, words, sizeof words);
	for (u64 i = 0; i < 16; i++) {
		TURN(16 * INODES, return 0);
		all |= words[i];
	}
	return all == 0;
}

/* Whether the checksum of an inode is right; `seed` is with its number and generation. */
INLINED u64 inode_sum_is_right(u64 at, u32 seed)
{
	u64 wanted = u16_at(at + 0x7c);
	u32 nothing = 0, sum = crc32c_part(seed, at, 0x7c);

	sum = crc32c_memory_part(sum, &nothing, 2);
	sum = crc32c_part(sum, at + 0x7e, 2);
	if (v.inode_size == 128)
		return (u16)sum == wanted;
	if (u16_at(at + 0x80) < 4)
		return (u16)crc32c_part(sum, at + 0x80, v.inode_size - 0x80) == wanted;
	wanted |= (u64)u16_at(at + 0x82) << 16;
	sum = crc32c_part(sum, at + 0x80, 2);
	sum = crc32c_memory_part(sum, &nothing, 2);
	return (u32)crc32c_part(sum, at + 0x84, v.inode_size - 0x84) == wanted;
}

/* Follows the list of inodes that a mount deletes or cuts. */
INLINED u64 look_at_orphans(void)
{
	u64 inode = u32_in(super + 0xe8);

	while (inode) {
		u64 at;

		TURN(INODES + 1, return ORPHANS);
		if (inode < FIRST_INODE || inode > v.inodes || types[inode])
			return ORPHANS;
		at = inode_at(inode);
		if (!at)
			return ORPHANS;
		types[inode] = ORPHAN;
		inode = u32_at(at + 0x14);
	}
	return 0;
}

/* Whether the eight bytes of a name have a zero or a slash. */
INLINED u64 has_bad_byte(u64 word)
{
	u64 slashes = word ^ 0x2f2f2f2f2f2f2f2f;

	return ((word - 0x0101010101010101) & ~word & 0x8080808080808080)
		| ((slashes - 0x0101010101010101) & ~slashes & 0x8080808080808080);
}

INLINED u64 name_is_bad(u64 at, u64 length)
{
	u16 start = u16_at(at);

	if ((length == 1 && (u8)start == '.') || (length == 2 && start == 0x2e2e) || length == 0)
		return 1;
	for (;;) {
		u64 word = u64_at(at);

		TURN(32768, return 1);
		if (length < 8)
			word |= 0x4141414141414141 << 8 * length;
		if (has_bad_byte(word))
			return 1;
		if (length <= 8)
			return 0;
		length -= 8;
		at += 8;
	}
}

/* Whether the checksum of a block of an index of names is right. */
INLINED u64 index_sum_is_right(u64 at, u64 offset, u32 seed)
{
	u64 limit = u16_at(at + offset), count = u16_at(at + offset + 2), tail = offset + 8 * limit;
	u32 sum;

	if (tail + 8 > v.size || count > limit || count == 0)
		return 0;
	sum = crc32c_part(seed, at, offset + 8 * count);
	sum = crc32c_part(sum, at + tail, 4);
	return with_number(sum, 0) == u32_at(at + tail + 4);
}

/* Block `logical` of the directory `directory`. */
LOCAL(check) u64 look_at_entries(u64 directory, u64 logical, u64 block, u64 indexed, u32 seed)
{
	u64 begin = place(block), at = begin, end = begin + v.size;

	if (v.ro_compat & CHECKSUMS) {
		u64 offset = logical == 0 ? 0x20 : u64_at(at) == v.size << 32 ? 0x8 : 0;

		if (indexed && offset) {
			if (!index_sum_is_right(at, offset, seed))
				return DIRECTORY_CHECKSUM;
		} else {
			end -= 12;
			if (u64_at(end) != 0xde00000c00000000 || (u32)crc32c_part(seed, at, v.size - 12) != u32_at(end + 8))
				return DIRECTORY_CHECKSUM;
		}
	}
	while (at < end) {
		struct entry e;
		u64 dots = 0;

		TURN(32768, return TURNS_SPENT);
		copy(at, &e, sizeof e);
		if (e.length < 12 || e.length % 4 || at + e.length > end || e.name_length + 8 > e.length)
			return ENTRY;
		if (logical == 0 && at == begin)
			dots = 1;
		else if (logical == 0 && at == begin + 12)
			dots = 2;
		if (dots) {
			if (e.name_length != dots || (u16_at(at + 8) | (dots == 1) << 8) != (dots == 1 ? 0x12e : 0x2e2e)
			    || (e.type && e.type != DIRECTORY) || (dots == 1 && (e.inode != directory || e.length != 12)))
				return ENTRY;
		}
		if (e.inode) {
			if (e.inode > v.inodes || (e.inode < FIRST_INODE && e.inode != ROOT))
				return ENTRY;
			links[e.inode]++;
			if (dots == 2)
				above[directory] = e.inode;
			if (!dots) {
				if (e.inode == ROOT || name_is_bad(at + 8, e.name_length) || e.type > 7
				    || (said[e.inode] && e.type && said[e.inode] != e.type))
					return ENTRY;
				if (e.type)
					said[e.inode] = e.type;
				if (e.type == DIRECTORY && parent[e.inode])
					return PARENT;
				parent[e.inode] = directory;
			}
		} else if (dots) {
			return ENTRY;
		}
		at += e.length;
	}
	return 0;
}

/* The text of a symbolic link ends where its size says. */
LOCAL(check) u64 text_ends(u64 at, u64 size)
{
	return size > 0 && u8_at(at + size - 1) && !u8_at(at + size);
}

/* Whether the head of a node of a tree of extents has this depth, and no more entries than there is room. */
LOCAL(check) u64 node_is_right(u64 at, u64 room, u64 depth)
{
	u64 count = u16_at(at + 2), most = u16_at(at + 4);

	return u16_at(at) == 0xf30a && count <= most && most <= room && most + 2 >= room && u16_at(at + 6) == depth;
}

/* All blocks of an inode, which is of this type, or an orphan where that is 0. */
LOCAL(check) u64 look_at_blocks(u64 inode, u64 at, u64 type, u32 seed)
{
	u64 flags = u32_at(at + 0x20), size = u32_at(at + 4) | (u64)u32_at(at + 0x6c) << 32, counted = u32_at(at + 0x1c);
	u64 run = 0, logical = 0, physical = 0, found = 0, written = 0, end = 0, end_written = 0, fault;
	u64 with_extents = flags >> 19 & 1, level = 4, top = 4, branch = 4, room = (v.size - 12) / 12;

	if (v.ro_compat & HUGE_FILE) {
		counted |= (u64)u16_at(at + 0x74) << 32;
		if (flags & 0x40000)
			counted *= v.size / 512;
	}
	node[4] = at + 0x28;
	next_entry[4] = 0;
	entries[4] = 15;
	if (with_extents) {
		level = top = u16_at(at + 0x2e);
		if (level > 4 || !node_is_right(at + 0x28, 4, level))
			return TREE;
		node[level] = at + 0x28;
		next_entry[level] = 0;
		entries[level] = u16_at(at + 0x2a);
	}
	for (;;) {
		u64 entry, child = 0, depth;

		TURN(8 * BLOCKS, return TURNS_SPENT);
		if (run) {
			/* blocks of data; of a directory, and of the blocks for groups to come, one at a time */
			u64 count = type == DIRECTORY || inode == RESIZE ? 1 : run;

			found += count;
			if (inode == RESIZE ? !is_taken(physical) : take(physical, count)) {
				report(physical);
				return BLOCK;
			}
			if (type == DIRECTORY) {
				if (logical != end || !written)
					return TREE;
				fault = look_at_entries(inode, logical, physical, flags >> 12 & 1, seed);
				if (fault)
					return fault;
			}
			physical += count;
			logical += count;
			end = logical;
			if (written)
				end_written = end;
			run -= count;
			continue;
		}
		if (next_entry[level] == entries[level]) {
			if (level == top)
				break;
			level = level == branch && !with_extents ? top : level + 1;
			continue;
		}
		entry = next_entry[level]++;
		if (with_extents) {
			entry = node[level] + 12 + 12 * entry;
			depth = level;
			if (level == 0) {
				u64 from = u32_at(entry);

				run = u16_at(entry + 4);
				written = run <= 32768;
				run -= written ? 0 : 32768;
				if (from < logical || run == 0)
					return TREE;
				logical = from;
				physical = u32_at(entry + 8) | (u64)u16_at(entry + 6) << 32;
			} else {
				child = u32_at(entry + 4) | (u64)u16_at(entry + 8) << 32;
			}
		} else {
			u64 number = node[level] + 4 * entry, step = 1;

			child = u32_at(number);
			depth = level < 4 ? level - 1 : entry < 12 ? 0 : entry - 11;
			if (level == 4)
				branch = depth;
			if (!child) {
				/* where there are no others in the sector, past all of it */
				if (level < 4 && number % 512 == 0 && zero(number / 512) == 1)
					step = 128;
				next_entry[level] += step - 1;
				logical += step << (v.bits - 2) * depth;
				continue;
			}
			if (depth == 0) {
				physical = child;
				run = written = 1;
			}
		}
		if (depth == 0)
			continue;
		/* a block of the tree */
		found++;
		if (inode == RESIZE && depth == 1 ? !is_taken(child) : take(child, 1)) {
			report(child);
			return BLOCK;
		}
		child = place(child);
		if (with_extents) {
			u64 tail = 12 + 12 * u16_at(child + 4);

			level--;
			if (!node_is_right(child, room, level) || u16_at(child + 2) == 0 || u32_at(child + 12) != u32_at(entry))
				return TREE;
			if (v.ro_compat & CHECKSUMS && (u32)crc32c_part(seed, child, tail) != u32_at(child + tail))
				return TREE;
			entries[level] = u16_at(child + 2);
		} else {
			level = depth;
			entries[level] = v.size / 4;
		}
		node[level] = child;
		next_entry[level] = 0;
	}
	if (counted != found * (v.size / 512) || size >> (32 + v.bits))
		return SIZES;
	if (type == 0 || inode == RESIZE)
		return 0;
	if (type == DIRECTORY)
		return end == 0 || size != end << v.bits ? SIZES : 0;
	if (type == SYMLINK)
		return found != 1 || end != 1 || size >= v.size || !text_ends(place(physical - 1), size) ? SIZES : 0;
	return end_written && size < (end_written - 1) << v.bits ? SIZES : 0;
}

/* The types that entries have, by the upper four bits of the mode. */
#define TYPES (5ull << 4 | 3ull << 8 | 2ull << 16 | 4ull << 24 | 1ull << 32 | 7ull << 40 | 6ull << 48)

/* An inode that its group doesn't call unused. */
INLINED u64 look_at_inode(u64 inode, u64 at)
{
	u64 mode, count, flags, type;
	u32 seed;

	if (zero(at / 512) == 1)
		return types[inode] ? ORPHANS : 0;
	mode = u16_at(at);
	count = u16_at(at + 0x1a);
	flags = u32_at(at + 0x20);
	type = TYPES >> 4 * (mode >> 12) & 0xf;
	seed = with_number(with_number(v.seed, inode), u32_at(at + 0x64));
	if (v.ro_compat & CHECKSUMS && !inode_sum_is_right(at, seed) && !is_empty(at))
		return INODE_CHECKSUM;
	if (inode < FIRST_INODE && inode != ROOT && inode != RESIZE && inode != JOURNAL_INODE)
		return mode || count || u32_at(at + 0x1c) ? INODE : 0;
	if (count == 0 && !types[inode])
		return mode && !u32_at(at + 0x14) ? INODE : 0;
	if (type == 0 || (u32_at(at + 0x14) && !types[inode]) || (inode == ROOT && type != DIRECTORY) || u32_at(at + 0x70)
	    || flags & 0x10200000)
		return INODE;
	if (v.inode_size > 128 && (u16_at(at + 0x80) > v.inode_size - 128 || u16_at(at + 0x80) % 4))
		return INODE;
	if (u32_at(at + 0x68) || u16_at(at + 0x76))
		return NOT_TAKEN;
	links[inode] -= count;
	if (types[inode] == ORPHAN) {
		types[inode] |= type;
		type = count == 0 || type == REGULAR ? 0 : type;
	} else {
		types[inode] = type;
	}
	if (type == SYMLINK && u32_at(at + 4) < 60)
		return flags & 0x80000 || !text_ends(at + 0x28, u32_at(at + 4)) || u32_at(at + 0x1c) || u32_at(at + 0x6c) ? SIZES : 0;
	if (type > DIRECTORY && type != SYMLINK)
		return u32_at(at + 4) || u32_at(at + 0x6c) || u32_at(at + 0x1c) ? SIZES : 0;
	return look_at_blocks(inode, at, type, seed);
}

INLINED u64 look_at_inodes(void)
{
	for (u64 group = 0; group < v.groups; group++) {
		u64 at = descriptor_at(group), table = block_at(at, 8), count = v.inodes_per_group;

		TURN(GROUPS, return TURNS_SPENT);
		if (v.ro_compat & (CHECKSUMS | GROUP_CHECKSUM)) {
			u64 unused = number_at(at, 0x1c, 0x32);

			if (unused > count) {
				report(group);
				return GROUP;
			}
			count = u16_at(at + 0x12) & 1 ? 0 : count - unused;
		}
		for (u64 i = 0; i < count; i++) {
			u64 offset = i * v.inode_size, inode = group * v.inodes_per_group + i + 1, fault;

			TURN(INODES, return TURNS_SPENT);
			fault = look_at_inode(inode, place(table + (offset >> v.bits)) + (offset & (v.size - 1)));
			if (fault) {
				report(inode);
				return fault;
			}
		}
	}
	return 0;
}

/* What entries, links and parents come to for an inode in use. */
INLINED u64 names_fault(u64 inode)
{
	u64 type = types[inode] & TYPE, up = inode, steps = 0;

	if (said[inode] && said[inode] != type)
		return ENTRY;
	if (type != DIRECTORY || types[inode] & ORPHAN)
		return 0;
	if (inode == ROOT)
		return above[inode] != ROOT ? PARENT : 0;
	if (parent[inode] == 0 || above[inode] != parent[inode])
		return PARENT;
	while (up != ROOT && !(types[up] & CONNECTED)) {
		TURN(4 * INODES, return TURNS_SPENT);
		if (steps++ > v.inodes || up == 0)
			return PARENT;
		up = parent[up];
	}
	types[inode] |= CONNECTED;
	return 0;
}

/* The bitmap of blocks against the blocks that were found; the free ones are told, or 1 << 32. */
INLINED u64 free_blocks(u64 group, u64 at)
{
	u64 bitmap = place(block_at(at, 0)), free = 0, words = v.per_group / 64, all = v.blocks - v.first;

	for (u64 i = 0; i < words; i++) {
		u64 word = group * words + i, want = ~0ull;

		TURN(1024, return 1ull << 32);
		if (64 * word < all)
			want = used[word];
		if (64 * word < all && all < 64 * word + 64)
			want |= ~0ull << all % 64;
		if (!(u16_at(at + 0x12) & 2) && u64_at(bitmap + 8 * i) != want) {
			report(v.first + 64 * word);
			return 1ull << 32;
		}
		free += 64 - __builtin_popcountll(want);
	}
	return free;
}

/* The bitmaps, the entries, the links and the counts. */
LOCAL(check) u64 look_at_counts(void)
{
	for (u64 group = 0; group < v.groups; group++) {
		u64 at = descriptor_at(group), bitmap = place(block_at(at, 4)), free = 0, directories = 0, byte = 0;
		u64 is_unused = v.ro_compat & (CHECKSUMS | GROUP_CHECKSUM) && u16_at(at + 0x12) & 1;

		TURN(GROUPS, return TURNS_SPENT);
		for (u64 i = 0; i < v.inodes_per_group; i++) {
			u64 inode = group * v.inodes_per_group + i + 1, is_used = types[inode] || inode < FIRST_INODE, fault;

			TURN(INODES, return TURNS_SPENT);
			byte = i % 8 ? byte >> 1 : is_unused ? 0 : u8_at(bitmap + i / 8);
			fault = inode < FIRST_INODE && inode != ROOT ? 0 : links[inode] ? LINKS : types[inode] ? names_fault(inode) : 0;
			if (!fault && (byte & 1) != is_used)
				fault = INODE_BITMAP;
			if (fault) {
				report(inode);
				return fault;
			}
			free += !is_used;
			directories += (types[inode] & TYPE) == DIRECTORY;
		}
		if (free != number_at(at, 0xe, 0x2e) || directories != number_at(at, 0x10, 0x30)) {
			report(group);
			return COUNTS;
		}
		free = free_blocks(group, at);
		if (free >> 32)
			return BLOCK_BITMAP;
		if (free != number_at(at, 0xc, 0x2c)) {
			report(group);
			return COUNTS;
		}
	}
	return 0;
}

INLINED u64 fault_of(const struct context *context)
{
	u64 fault, again = 0, at = 1024;

	for (;;) {
		TURN(2, return TURNS_SPENT);
		if (copy(at, super, 512) | copy(at + 512, super + 512, 512))
			return NO_SUPER;
		fault = super_fault(context->sectors);
		if (fault)
			return fault;
		if (again || !(v.compat & HAS_JOURNAL))
			break;
		fault = find_journal();
		if (fault)
			return fault;
		fault = replay();
		if (fault)
			return fault;
		again = 1;
		at = place(1024 >> v.bits) + (1024 & (v.size - 1));
	}
	fault = look_at_groups();
	if (fault)
		return fault;
	fault = look_at_orphans();
	if (fault)
		return fault;
	fault = look_at_inodes();
	if (fault)
		return fault;
	return look_at_counts();
}

u64 check(const struct context *context)
{
	u64 fault = fault_of(context);

	return escaped ? NOT_TAKEN : fault;
}
