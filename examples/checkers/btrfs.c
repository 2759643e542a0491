/*
 * A btrfs on one device, from sector 0 on, as a mount finds it after a crash.
 *
 *     crashbpf-cc btrfs.c check btrfs.bpf --sectors 32768 --large
 *     trace_log.py btrfs/no_flush.trace no_flush.log --sectors 32768 --large
 *     crashbpf explore no_flush.log btrfs.bpf --sectors 32768 --large --from 28 --by write --guards
 *
 * The format is that of btrfs-progs' page on-disk-format. It goes the way of a mount: the super block at 64 KiB; the chunks that stand
 * in it, by which the chunk tree is found; the chunks of that, by which all else is found; the root tree, and each tree that this names.
 * The tree of extents comes last. It tests
 *
 *     the super block: its sum, its place, its sizes, its features; the identity that blocks have to have
 *     each chunk: its size, its places on the device, that it shares no address with another
 *     each block of a tree: its sum, identity, address, owner, and the generation, the level and the first key that stand where it is
 *     named; no generation is later than that of the super block. Of a chunk with two copies one that is whole is enough
 *     the keys of a tree: that each is greater than the one before; the data of a leaf: that they lie without a gap
 *     the extents: that each lies in a chunk and behind the one before, and has as many references as there are blocks of trees and
 *     extents of files that name it; of a block its generation, its level, its tree; that none is missing
 *     the block groups and the parts of the device that are in use: that they are those of the chunks; what is used of each, of all,
 *     and of the device
 *
 * So it finds what a commit lost: blocks that the super block leads to and that aren't there, or are of another commit.
 *
 * Taken are CRC-32C, one device, chunks that are single or DUP, blocks of 4 to 64 KiB; at most 32 chunks, 64 trees, 768 blocks and
 * extents, 65,536 items. Of the features raid56, raid1c34, zoned and extent_tree_v2 aren't taken, nor is a log tree, which fsync leaves.
 *
 * What it doesn't look at: the copies of the super block at 64 MiB and 256 GiB, as a mount doesn't; the backups of roots in it;
 * inodes, names, links and sizes of files; the sums and the bytes of files; the flags of blocks; the free space tree; in extents who
 * refers to data; trees of quotas, of identities and of what is moved, but that they are whole; and whether what was acknowledged is
 * there. Its answers:
 *
 *     1    no super block that is whole            8    the data of a leaf, or more items than a block holds
 *     2    not taken                               9    a key
 *     3    the numbers of the super block          10   a tree is missing, or its item is wrong
 *     4    a chunk                                 11   an extent
 *     5    an address in no chunk                  12   a block group, or what is used
 *     6    a block that isn't whole                13   a part of the device
 *     7    a block of another generation, level or tree
 *     255  a loop had too few turns
 *
 * Its code is the address of the block that was looked at, or of 12 and 13 that of the chunk.
 *
 * Compared with btrfs check of btrfs-progs 6.2, on mutants of file systems of 16 MiB, empty ones and ones with some sixty files:
 *
 *     113 as they were changed, natively               both pass 6, both fail 107
 *     325 with sums made right, natively               both pass 210, both fail 91, it alone fails 7, btrfs check alone fails 17
 *     300 by crashbpf-cc --against, and two unchanged  both pass 166, both fail 127, it alone fails 1, btrfs check alone fails 8
 *
 * It alone fails where the place, length, device or type of a chunk is another one in another tree (6): of five of these btrfs check says
 * so too, and ends with status 0. It alone fails on the item of an extent (2). btrfs check alone fails on inodes, names and extents of
 * files (22), on the flags of a block (2), and on the free space tree (1).
 *
 * The blocks of a chunk with two copies were damaged in the first, the second and both: both pass, pass and fail. Of snapshots, of
 * compression and of a kernel's writes nothing was tried.
 */
#include "checker.h"

#define SUPER 65536		/* the byte of the super block */
#define SUPER_BYTES 4096
#define CHUNKS 32
#define TREES 64
#define BLOCKS 768		/* the most blocks of trees that are looked at, with the extents that files have */
#define ITEMS 65536		/* the most items in them */
#define SLOTS 1024		/* of the table of these */

enum answer {
	NO_SUPER = 1, NOT_TAKEN, FIELDS, CHUNK, NO_PLACE, SUM, OTHER, PLACES, ORDER, TREE, EXTENT, GROUP, DEVICE,
};

#define MAGIC 0x4d5f53665248425f	/* _BHRfS_M */
#define NONE ((u64)-1)
#define LEVELS 8

/* Types of items, and trees. */
enum {
	FILE_EXTENT = 108, ROOT_ITEM = 132, EXTENT_ITEM = 168, METADATA_ITEM = 169, TREE_REFERENCE = 176, GROUP_ITEM = 192,
	DEVICE_EXTENT = 204, DEVICE_ITEM = 216, CHUNK_ITEM = 228,
};
enum { DEVICES = 1, FIRST_CHUNK = 256 };	/* the objects of devices and of chunks */
enum { ROOT_TREE = 1, EXTENT_TREE, CHUNK_TREE, DEVICE_TREE, FILE_TREE, CSUM_TREE = 7, FIRST_FILE_TREE = 256 };

/* Profiles of a chunk: those that are taken are single, with one place, and DUP, with two. */
#define PROFILES 0x7f8
#define DUP 0x20

struct key {
	u64 object;
	u8 type;
	u64 offset;
} __attribute__((packed));

struct item {
	struct key key;
	u32 at, size;
} __attribute__((packed));

struct pointer {
	struct key key;
	u64 block, generation;
} __attribute__((packed));

struct header {
	u8 sum[32];
	u64 volume[2], block, flags, chunks[2], generation, owner;
	u32 items;
	u8 level;
} __attribute__((packed));

struct device_item {
	u64 id, bytes, used;
	u32 align, width, sector;
	u64 type, generation, start;
	u32 group;
	u8 seek, bandwidth;
	u64 uuid[2], volume[2];
} __attribute__((packed));

struct chunk_item {
	u64 length, owner, stripe_length, type;
	u32 align, width, sector;
	u16 stripes, sub_stripes;
	struct { u64 device, place, uuid[2]; } stripe[2];
} __attribute__((packed));

struct extent_item {
	u64 references, generation, flags;
	u8 type;
	u64 root;
} __attribute__((packed));

struct group_item {
	u64 used, object, flags;
} __attribute__((packed));

struct device_extent {
	u64 tree, object, first, length;
} __attribute__((packed));

struct file_extent {
	u64 generation, bytes;
	u8 compression, encryption;
	u16 encoding;
	u8 type;
	u64 first, length;
} __attribute__((packed));

/* With one stripe; each more takes STRIPE. */
#define STRIPE 32
#define CHUNK_BYTES (sizeof(struct chunk_item) - STRIPE)

struct root_item {
	u64 inode[20], generation, directory, block, limit, used, snapshot, flags;
	u32 references;
	struct key progress;
	u8 progress_level, level;
} __attribute__((packed));

/* The super block, up to its chunks. */
static struct {
	u8 sum[32];
	u64 volume[2], here, flags, magic, generation, root, chunk_root, log_root, log_generation, bytes, used, directory, devices;
	u32 sector, node, leaf, stripe, chunks;
	u64 chunk_generation, compat, compat_ro, incompat;
	u16 sum_type;
	u8 root_level, chunk_level, log_level;
	struct device_item device;
	u8 label[256];
	u64 cache_generation, uuid_generation, metadata[2], reserved[28];
	u8 chunk[2048];
} __attribute__((packed)) s;

/* Features: those that are taken, and what changes the identity in blocks. */
#define INCOMPAT_TAKEN 0x77f
#define METADATA_UUID 0x400

/* Flags of the super block: a seed of other devices, an image of metadata alone, and a change of the identity that isn't finished. */
#define SEED (1ull << 32)
#define DUMPED (3ull << 33)
#define CHANGING (1ull << 35)

/* The identity that stands in blocks of trees. */
static u64 volume[2];

/* The chunks: where each lies, what its extents come to, and what its block group says of that. */
static struct { u64 first, length, type, place[2], used, told, groups, places; } chunks[CHUNKS];
static u64 chunk_count;

/* The trees that the root tree names. */
static struct { u64 id, block, generation, level; } trees[TREES];
static u64 tree_count, tree_set;

#define NEEDED (1 << EXTENT_TREE | 1 << DEVICE_TREE | 1 << FILE_TREE | 1 << CSUM_TREE)

/* The blocks of trees, and the extents that files have: of a block its generation, its tree and level; how often each was reached. */
static struct { u64 first, generation, tree; u32 length, level, times; } reached[SLOTS];
static u64 reached_count, extent_count;

/* The end of the last extent that was seen; what the extents of the device come to, and what its item says of that. */
static u64 extents_end, device_used, device_told, device_count;

/* The way from the root of a tree to the block that is looked at: where each lies on the device, its next pointer, and their number. */
static struct { u64 at, next, count; } way[LEVELS];

/* The last key that was seen in the tree. */
static struct key last;
static u64 any;

/* The address of the block that is looked at. */
static u64 seen;

/* Whether a sector or a block may have this many bytes. */
INLINED int is_size(u64 n)
{
	return n >= 4096 && n <= 65536 && !(n & (n - 1));
}

INLINED int is_below(const struct key *a, const struct key *b)
{
	return a->object != b->object ? a->object < b->object : a->type != b->type ? a->type < b->type : a->offset < b->offset;
}

INLINED int is_same(const struct key *a, const struct key *b)
{
	return a->object == b->object && a->type == b->type && a->offset == b->offset;
}

/* Whether the sum of the bytes behind the first 32 stands in front. */
LOCAL(check) u64 has_sum(u64 at, u64 bytes)
{
	u64 sum = CRC32C_START, end = at + bytes;

	for (u64 from = at + 32; from < end; from += 4096) {
		TURN(16 * BLOCKS, return 0);
		sum = crc32c_part(sum, from, end - from < 4096 ? end - from : 4096);
	}
	return (u32)~sum == u32_at(at);
}

/* Where a copy of an address lies on the device; or NONE. */
LOCAL(check) u64 place_of(u64 address, u64 copy)
{
	for (u64 i = 0; i < chunk_count; i++) {
		TURN(2 * CHUNKS * BLOCKS, return NONE);
		if (address - chunks[i].first < chunks[i].length)
			return chunks[i].place[copy] == NONE ? NONE : chunks[i].place[copy] + (address - chunks[i].first);
	}
	return NONE;
}

/* Where a copy of a block lies that is whole; or NONE. */
LOCAL(check) u64 whole_block(u64 block)
{
	for (u64 copy = 0; copy < 2; copy++) {
		u64 at = place_of(block, copy);

		TURN(2 * BLOCKS, return NONE);
		if (at != NONE && has_sum(at, s.node) && u64_at(at + 48) == block && u64_at(at + 32) == volume[0] && u64_at(at + 40) == volume[1])
			return at;
	}
	return NONE;
}

/* Keeps the chunk at logical address `first`, whose item of `bytes` bytes stands at byte `at`. */
LOCAL(check) u64 fault_of_chunk(u64 first, u64 at, u64 bytes)
{
	struct chunk_item it;
	u64 copies;

	if (copy(at, &it, sizeof it) || bytes < CHUNK_BYTES)
		return CHUNK;
	if (it.type & PROFILES & ~DUP)
		return NOT_TAKEN;
	copies = it.type & DUP ? 2 : 1;
	if (it.stripes != copies || bytes != CHUNK_BYTES + STRIPE * (copies - 1))
		return CHUNK;
	if (it.stripe_length != 65536 || it.sector != s.sector)
		return CHUNK;
	if (first % s.sector || it.length % s.sector || !it.length || it.length > s.device.bytes || first + it.length < first)
		return CHUNK;
	for (u64 i = 0; i < copies; i++) {
		TURN(4 * CHUNKS, return TURNS_SPENT);
		if (it.stripe[i].device != s.device.id || it.stripe[i].place > s.device.bytes - it.length)
			return CHUNK;
		if (it.stripe[i].uuid[0] != s.device.uuid[0] || it.stripe[i].uuid[1] != s.device.uuid[1])
			return CHUNK;
	}
	for (u64 i = 0; i < chunk_count; i++) {
		TURN(CHUNKS * CHUNKS, return TURNS_SPENT);
		if (chunks[i].first == first)
			return chunks[i].length == it.length && chunks[i].type == it.type && chunks[i].place[0] == it.stripe[0].place ? 0 : CHUNK;
		if (chunks[i].first < first + it.length && first < chunks[i].first + chunks[i].length)
			return CHUNK;
	}
	if (chunk_count == CHUNKS)
		return NOT_TAKEN;
	chunks[chunk_count].first = first;
	chunks[chunk_count].length = it.length;
	chunks[chunk_count].type = it.type;
	chunks[chunk_count].place[0] = it.stripe[0].place;
	chunks[chunk_count++].place[1] = copies == 2 ? it.stripe[1].place : NONE;
	return 0;
}

/* Keeps a tree, whose item stands at a byte. */
LOCAL(check) u64 fault_of_root(u64 id, u64 at, u64 bytes)
{
	struct root_item it;

	if (bytes < sizeof it || copy(at, &it, sizeof it) || it.level >= LEVELS || it.block % s.sector || !it.block)
		return TREE;
	if (tree_count == TREES)
		return NOT_TAKEN;
	if (id < 64)
		tree_set |= 1ull << id;
	trees[tree_count].id = id;
	trees[tree_count].block = it.block;
	trees[tree_count].generation = it.generation;
	trees[tree_count++].level = it.level;
	return 0;
}

/* The slot of the table for what begins at an address; the first that is free where it isn't there. SLOTS if that takes too long. */
LOCAL(check) u64 slot_of(u64 first)
{
	u64 slot = (first >> 12) * 0x9e3779b97f4a7c15 >> 54;

	while (reached[slot].first && reached[slot].first != first) {
		TURN(64 * BLOCKS, return SLOTS);
		slot = (slot + 1) % SLOTS;
	}
	return slot;
}

/* Notes that something was reached, by the slot for it; answers 0 for the first time. */
LOCAL(check) u64 reach(u64 slot, u64 first, u64 length)
{
	if (slot == SLOTS)
		return TURNS_SPENT;
	if (!reached[slot].first) {
		if (reached_count == BLOCKS)
			return NOT_TAKEN;
		reached_count++;
		reached[slot].first = first;
		reached[slot].length = length;
	}
	reached[slot].times++;
	return reached[slot].length == length ? 0 : EXTENT;
}

/* An extent of a file. */
INLINED u64 fault_of_file_extent(u64 at, u64 bytes)
{
	struct file_extent it;

	if (bytes < sizeof it)
		return bytes < 21 ? EXTENT : 0;
	copy(at, &it, sizeof it);
	return it.type == 0 || !it.first ? 0 : reach(slot_of(it.first), it.first, it.length);
}

/* The chunk in which an address lies; or chunk_count. */
LOCAL(check) u64 chunk_of(u64 address)
{
	u64 i = 0;

	for (; i < chunk_count; i++) {
		TURN(2 * CHUNKS * BLOCKS, return chunk_count);
		if (address - chunks[i].first < chunks[i].length)
			break;
	}
	return i;
}

/* An extent: it lies in a chunk behind the one before, and was reached as often as it says. */
INLINED u64 fault_of_extent(const struct item *item, u64 at)
{
	u64 skinny = item->key.type == METADATA_ITEM, length = skinny ? s.node : item->key.offset, first = item->key.object;
	u64 slot = slot_of(first), chunk = chunk_of(first);
	struct extent_item it;

	copy(at, &it, sizeof it);
	if (item->size < 24 || chunk == chunk_count || first < extents_end || length > chunks[chunk].first + chunks[chunk].length - first)
		return EXTENT;
	extents_end = first + length;
	chunks[chunk].used += length;
	extent_count++;
	if (slot == SLOTS)
		return TURNS_SPENT;
	if (reached[slot].first != first || reached[slot].length != length || reached[slot].times != it.references)
		return EXTENT;
	if (!reached[slot].tree)
		return it.flags & 1 && !skinny ? 0 : EXTENT;
	if (!(it.flags & 2) || reached[slot].generation != it.generation || (skinny && item->key.offset != reached[slot].level))
		return EXTENT;
	return skinny && item->size == sizeof it && it.type == TREE_REFERENCE && it.root != reached[slot].tree ? EXTENT : 0;
}

/* A block group: it is that of a chunk. */
INLINED u64 fault_of_group(const struct item *item, u64 at)
{
	u64 chunk = chunk_of(item->key.object);
	struct group_item it;

	copy(at, &it, sizeof it);
	if (item->size < sizeof it || chunk == chunk_count)
		return GROUP;
	if (chunks[chunk].first != item->key.object || chunks[chunk].length != item->key.offset)
		return GROUP;
	chunks[chunk].groups++;
	chunks[chunk].told = it.used;
	return it.flags == chunks[chunk].type && it.object == FIRST_CHUNK ? 0 : GROUP;
}

/* The device, as the chunk tree has it. */
INLINED u64 fault_of_device(const struct item *item, u64 at)
{
	struct device_item it;

	copy(at, &it, sizeof it);
	if (item->size != sizeof it || item->key.object != DEVICES || item->key.offset != it.id || it.id != s.device.id)
		return DEVICE;
	if (it.uuid[0] != s.device.uuid[0] || it.uuid[1] != s.device.uuid[1] || it.volume[0] != volume[0] || it.volume[1] != volume[1])
		return DEVICE;
	device_count++;
	device_told = it.used;
	return it.bytes == s.device.bytes ? 0 : DEVICE;
}

/* A part of the device that is in use: it is a place of a chunk. */
INLINED u64 fault_of_device_extent(const struct item *item, u64 at)
{
	struct device_extent it;
	u64 chunk;

	copy(at, &it, sizeof it);
	chunk = chunk_of(it.first);
	if (item->size < sizeof it || chunk == chunk_count || chunks[chunk].first != it.first || chunks[chunk].length != it.length)
		return DEVICE;
	if (item->key.object != s.device.id || (item->key.offset != chunks[chunk].place[0] && item->key.offset != chunks[chunk].place[1]))
		return DEVICE;
	chunks[chunk].places++;
	device_used += it.length;
	return 0;
}

/* The chunks, when all extents were seen. */
INLINED u64 fault_of_sums(void)
{
	u64 used = 0;

	for (u64 i = 0; i < chunk_count; i++) {
		TURN(CHUNKS, return TURNS_SPENT);
		seen = chunks[i].first;
		if (chunks[i].groups != 1 || chunks[i].told != chunks[i].used)
			return GROUP;
		if (chunks[i].places != (chunks[i].place[1] == NONE ? 1 : 2))
			return DEVICE;
		used += chunks[i].used;
	}
	seen = 0;
	if (used != s.used)
		return GROUP;
	if (device_count != 1 || device_used != s.device.used || device_used != device_told)
		return DEVICE;
	return extent_count == reached_count ? 0 : EXTENT;
}

/* The items of a leaf: their order, their places, and what those say that lead to other blocks. */
LOCAL(check) u64 fault_of_leaf(u64 tree, u64 at, u64 count)
{
	u64 end = s.node - sizeof(struct header), fault = 0, data;

	for (u64 i = 0; i < count; i++) {
		struct item it;

		TURN(ITEMS, return TURNS_SPENT);
		copy(at + sizeof(struct header) + i * sizeof it, &it, sizeof it);
		if (any && !is_below(&last, &it.key))
			return ORDER;
		last = it.key;
		any = 1;
		if ((u64)it.at + it.size != end || it.at < count * sizeof it)
			return PLACES;
		end = it.at;
		data = at + sizeof(struct header) + it.at;
		if (tree == CHUNK_TREE && it.key.type == CHUNK_ITEM)
			fault = fault_of_chunk(it.key.offset, data, it.size);
		else if (tree == CHUNK_TREE && it.key.type == DEVICE_ITEM)
			fault = fault_of_device(&it, data);
		else if (tree == ROOT_TREE && it.key.type == ROOT_ITEM)
			fault = fault_of_root(it.key.object, data, it.size);
		else if (tree == EXTENT_TREE && (it.key.type == EXTENT_ITEM || it.key.type == METADATA_ITEM))
			fault = fault_of_extent(&it, data);
		else if (tree == EXTENT_TREE && it.key.type == GROUP_ITEM)
			fault = fault_of_group(&it, data);
		else if (tree == DEVICE_TREE && it.key.type == DEVICE_EXTENT)
			fault = fault_of_device_extent(&it, data);
		else if (it.key.type == FILE_EXTENT && (tree == FILE_TREE || tree >= FIRST_FILE_TREE))
			fault = fault_of_file_extent(data, it.size);
		if (fault)
			return fault;
	}
	return 0;
}

/* The tree with the root block that is named, of this generation and level. */
LOCAL(check) u64 fault_of_tree(u64 tree, u64 block, u64 generation, u64 level)
{
	u64 top = level, fault;
	struct pointer next = { .block = block, .generation = generation };
	struct header h;

	if (level >= LEVELS)
		return OTHER;
	any = 0;
	for (;;) {
		u64 slot = slot_of(next.block), at;

		TURN(2 * BLOCKS, return TURNS_SPENT);
		seen = next.block;
		fault = reach(slot, next.block, s.node);
		if (fault)
			return fault;
		way[level].next = way[level].count = 0;
		/* A block that snapshots share is looked at once. */
		if (reached[slot].times == 1) {
			at = whole_block(next.block);
			if (at == NONE)
				return place_of(next.block, 0) == NONE ? NO_PLACE : SUM;
			copy(at, &h, sizeof h);
			if (h.generation != next.generation || h.generation > s.generation || h.level != level)
				return OTHER;
			if ((tree < FIRST_FILE_TREE || level == top) && h.owner != tree)
				return OTHER;
			reached[slot].generation = h.generation;
			reached[slot].tree = h.owner;
			reached[slot].level = level;
			if (h.items > (s.node - sizeof h) / (level ? sizeof next : sizeof(struct item)) || (level != top && !h.items))
				return PLACES;
			if (level != top) {
				struct key first;

				copy(at + sizeof h, &first, sizeof first);
				if (!is_same(&first, &next.key))
					return ORDER;
			}
			if (level == 0) {
				fault = fault_of_leaf(tree, at, h.items);
				if (fault)
					return fault;
			} else {
				way[level].at = at;
				way[level].count = h.items;
			}
		} else if (reached[slot].generation != next.generation || reached[slot].level != level
			   || (tree < FIRST_FILE_TREE && reached[slot].tree != tree)) {
			return OTHER;
		}
		while (way[level].next == way[level].count) {
			TURN(2 * BLOCKS, return TURNS_SPENT);
			if (level == top)
				return 0;
			level++;
		}
		copy(way[level].at + sizeof h + way[level].next * sizeof next, &next, sizeof next);
		if (any && !is_below(&last, &next.key))
			return ORDER;
		way[level].next++;
		level--;
	}
}

/* The super block: whether it is whole, and whether its numbers go together. */
INLINED u64 fault_of_super(u64 sectors)
{
	if (read_bytes(SUPER, &s, sizeof s) || s.magic != MAGIC || s.here != SUPER)
		return NO_SUPER;
	if (s.sum_type)
		return NOT_TAKEN;
	if (!has_sum(SUPER, SUPER_BYTES))
		return NO_SUPER;
	if (s.incompat & ~INCOMPAT_TAKEN || s.devices != 1 || s.log_root || s.flags & (SEED | DUMPED))
		return NOT_TAKEN;
	if (s.flags & CHANGING)
		return FIELDS;
	if (!is_size(s.sector) || !is_size(s.node) || s.sector > s.node || s.leaf != s.node || s.chunks > sizeof s.chunk)
		return FIELDS;
	if (s.root % s.sector || s.chunk_root % s.sector || s.chunk_generation > s.generation)
		return FIELDS;
	if (s.device.bytes > 512 * sectors || s.device.used > s.device.bytes || s.bytes < s.device.bytes || s.used > s.bytes)
		return FIELDS;
	volume[0] = s.incompat & METADATA_UUID ? s.metadata[0] : s.volume[0];
	volume[1] = s.incompat & METADATA_UUID ? s.metadata[1] : s.volume[1];
	return s.device.volume[0] == volume[0] && s.device.volume[1] == volume[1] ? 0 : FIELDS;
}

/* The chunks that stand in the super block: by these the chunk tree is found. */
INLINED u64 fault_of_system_chunks(void)
{
	for (u64 at = 0; at < s.chunks;) {
		u64 here = SUPER + 811 + at, bytes = CHUNK_BYTES + STRIPE * (u16_at(here + 17 + 44) - 1), fault;

		TURN(32, return TURNS_SPENT);
		if (s.chunks - at < 17 + bytes || u8_at(here + 8) != CHUNK_ITEM)
			return CHUNK;
		fault = fault_of_chunk(u64_at(here + 9), here + 17, bytes);
		if (fault)
			return fault;
		at += 17 + bytes;
	}
	return 0;
}

u64 check(const struct context *context)
{
	u64 fault = fault_of_super(context->sectors);

	if (fault)
		return fault;
	fault = fault_of_system_chunks();
	if (!fault)
		fault = fault_of_tree(CHUNK_TREE, s.chunk_root, s.chunk_generation, s.chunk_level);
	if (!fault)
		fault = fault_of_tree(ROOT_TREE, s.root, s.generation, s.root_level);
	if (!fault && (trees[0].id != EXTENT_TREE || (tree_set & NEEDED) != NEEDED)) {
		seen = 0;
		fault = TREE;
	}
	/* The tree of extents comes last, when all of these were reached. */
	for (u64 i = 1; !fault && i <= tree_count; i++) {
		u64 n = i < tree_count ? i : 0;

		TURN(TREES, return TURNS_SPENT);
		fault = fault_of_tree(trees[n].id, trees[n].block, trees[n].generation, trees[n].level);
	}
	if (!fault)
		fault = fault_of_sums();
	if (fault && seen)
		report(seen);
	return fault;
}

#ifdef CHECKER_NATIVE
/* Gives a changed image the sums that a writer would give it: of the super block, and of what looks like blocks of trees. */
void mend_sums(u8 *image, u64 bytes)
{
	u64 node = u32_at(SUPER + 148), identity = SUPER + (u64_at(SUPER + 188) & METADATA_UUID ? 571 : 32);
	u32 sum;

	if (bytes < SUPER + SUPER_BYTES)
		return;
	sum = ~crc32c_memory(CRC32C_START, image + SUPER + 32, SUPER_BYTES - 32);
	memcpy(image + SUPER, &sum, sizeof sum);
	if (node < 4096 || node > 65536)
		return;
	for (u64 at = 0; at + node <= bytes; at += 4096) {
		if (at != SUPER && memcmp(image + at + 32, image + identity, 16) == 0) {
			sum = ~crc32c_memory(CRC32C_START, image + at + 32, node - 32);
			memcpy(image + at, &sum, sizeof sum);
		}
	}
}
#endif
