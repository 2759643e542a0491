/*
 * A FAT file system, FAT12, FAT16 or FAT32, from sector 0 on.
 *
 *     crashbpf-cc fat.c check fat.bpf --sectors 4400
 *     trace_log.py fat/entry_first.trace entry_first.log --sectors 4400
 *     crashbpf explore entry_first.log fat.bpf --sectors 4400 --from 4 --guards
 *
 * The format is that of Microsoft's 'FAT32 File System Specification', version 1.03. As Linux and fsck.vfat do, it takes for FAT32
 * what has no size of a FAT of 16 bits, however few its clusters are, and goes on in a directory after an entry that was never used.
 *
 * It tests the boot sector; that the FAT begins with the media byte; of each file and directory, from the root on, that its chain
 * in the first FAT leads over clusters in use to an end, that no other chain has one of them, and that it is long enough for the
 * file's size; `.` and `..`; and the characters of short names. These are faults that lose data, or mix that of two files.
 *
 * With -D AS_FSCK it also takes for faults what crashes of each FAT file system leave, whatever the order of its writes: two FATs
 * that differ, clusters in use that no file has, a chain that is longer than its file, pieces of long names without their short
 * one, and a wrong number of free clusters in FSINFO. A mount lives with all of these. fsck.vfat mends them, and ends with 1.
 *
 * What it doesn't look at: the mark of a mount that didn't end (the dirty bit), the label in the boot sector, the copy of the
 * boot sector, equal names, the characters of long names and of labels, dates, and the cluster at which FSINFO says that a search
 * may begin. It holds 131,070 clusters, 2,048 directories and 65,536 entries. Its answers:
 *
 *     1    no boot sector, or one with sizes that don't go together
 *     2    not taken: FATs other than one or two, a version of FAT32 or mirrored FATs of its own, too many clusters or directories
 *     3    the FAT doesn't begin with the media byte
 *     4    a chain leads to a cluster that is free or bad, or that the device doesn't have
 *     5    two chains share a cluster, or a chain comes back to itself
 *     6    a file is larger than its chain
 *     7    `.` or `..` isn't there, or names another directory
 *     8    a short name with a character that it may not have
 *     9    pieces of a long name that don't belong together (AS_FSCK)
 *     10   a directory without a cluster, or with a size
 *     11   a chain is longer than its file (AS_FSCK)
 *     12   the two FATs differ (AS_FSCK)
 *     13   a cluster is in use and no file has it (AS_FSCK)
 *     14   FSINFO isn't one, or the number of free clusters is wrong (AS_FSCK)
 *     255  a loop had too few turns
 *
 * Its code is the byte of the entry; of 12 the sector, of 13 the cluster, of 14 the number of free clusters.
 *
 * Compared with fsck.vfat -n of dosfstools 4.2, with -D AS_FSCK. fsck.vfat finds a fault where its status isn't 0, or where it says
 * that it won't mend one by itself. Of images of a mounted file system the mark of the mount was taken away.
 *
 *     8 file systems of all three kinds, whole                          both pass all
 *     600 of these, each with one field damaged                         both pass 167, both fail 402, it alone 7, fsck.vfat alone 24
 *     300 images each, by write and by sector with bound 2, of what     both pass 258, both fail 942 (411 of these without AS_FSCK)
 *     Linux 6.1 wrote to a FAT16 and to a FAT32
 *     300 of the 15,410 images of right, bound 2 with tears             both pass 93, both fail 207 (none without AS_FSCK)
 *     300 of 27,376 of entry_first                                      both pass 108, both fail 192 (81)
 *     300 of 15,410 of freed_first                                      both pass 92, both fail 208 (3)
 *
 * It alone fails where the boot sector hasn't its signature (4), and where its media byte isn't that of the FAT (3). fsck.vfat alone
 * fails on a label of the boot sector that isn't that of the root directory (20), on the mark of a mount (3), and on a flag of an
 * entry `.` (1). Without AS_FSCK it fails on none of the 15,410 images of right.
 *
 * What programs of clang 14 and of gcc 12 answer, with AS_FSCK and without, is what the native builds answer, on 300 of the damaged
 * images; those of clang on the 2,100 images of logs too.
 */
#include "checker.h"

#define CLUSTERS 131072
#define DIRECTORIES 2048

enum answer {
	BOOT_SECTOR = 1, NOT_TAKEN, FAT_START, CHAIN, SHARED, SIZE, DOTS, NAME, LONG_NAME, DIRECTORY_ENTRY, LONGER, COPIES, LOST, SUMMARY,
};

/* All positions are in bytes. */
static struct volume {
	u64 sector, cluster;		/* their sizes */
	u64 table, table_size;		/* the first FAT */
	u64 root, root_size;		/* of FAT12 and FAT16 */
	u64 data, end;			/* of the clusters, from 2 on */
	u64 bits, root_cluster;
} v;

/* The clusters that a chain has; the directories that were found, each with its first cluster and its parent's. */
static u64 used[CLUSTERS / 64];
static u32 directory_start[DIRECTORIES], directory_parent[DIRECTORIES];
static u64 directories;
/* The entry that is looked at. */
static u64 place;

static struct entry {
	u8 name[11], attributes, kind, hundredths;
	u16 made_time, made, used, start_high, time, date, start_low;
	u32 size;
} e;
#define VOLUME 0x08
#define DIRECTORY 0x10
#define LONG 0x0f

INLINED u64 is_power(u64 n)
{
	return n && !(n & (n - 1));
}

/* The boot sector. */
LOCAL(check) u64 look_at_boot(u64 sectors)
{
	u64 reserved = u16_at(0xe), fats = u8_at(0x10), size = u16_at(0x16), all = u16_at(0x13), clusters;

	v.sector = u16_at(0xb);
	v.cluster = v.sector * u8_at(0xd);
	if (!size) {
		size = u32_at(0x24);
		v.bits = 32;
		v.root_cluster = u32_at(0x2c);
	}
	if (!all)
		all = u32_at(0x20);
	if (!is_power(v.sector) || v.sector < 512 || v.sector > 4096 || !is_power(v.cluster) || !reserved || !size || u16_at(510) != 0xaa55)
		return BOOT_SECTOR;
	if (fats != 1 && fats != 2)
		return fats ? NOT_TAKEN : BOOT_SECTOR;
	v.table = reserved * v.sector;
	v.table_size = size * v.sector;
	v.root = v.table + fats * v.table_size;
	v.root_size = 32 * u16_at(0x11);
	v.data = v.root + (v.root_size + v.sector - 1) / v.sector * v.sector;
	if (all * v.sector > 512 * sectors || v.data >= all * v.sector || (v.bits != 32) != (v.root_size != 0))
		return BOOT_SECTOR;
	clusters = (all * v.sector - v.data) / v.cluster;
	v.end = clusters + 2;
	if (v.bits != 32)
		v.bits = clusters < 4085 ? 12 : 16;
	if (v.end * v.bits > 8 * v.table_size || (v.bits == 16 && v.end > 0xfff6) || clusters == 0)
		return BOOT_SECTOR;
	if (v.bits == 32 && (u16_at(0x2a) || u16_at(0x28) & 0x80))
		return NOT_TAKEN;
	return v.end > CLUSTERS ? NOT_TAKEN : 0;
}

#define LAST 0x0ffffff8
#define BAD 0x0ffffff7

/* What the first FAT has for a cluster, as FAT32 has it. */
LOCAL(check) u64 next_of(u64 cluster)
{
	u64 next, top;

	if (v.bits == 32)
		return u32_at(v.table + 4 * cluster) & 0x0fffffff;
	if (v.bits == 16) {
		next = u16_at(v.table + 2 * cluster);
		top = 0xfff0;
	} else {
		next = u16_at(v.table + cluster + cluster / 2) >> (cluster & 1 ? 4 : 0) & 0xfff;
		top = 0xff0;
	}
	return next >= top ? next - top + 0x0ffffff0 : next;
}

#define FAULTY (1ull << 32)

/* Follows a chain and notes its clusters; answers their number, or FAULTY and a fault. */
LOCAL(check) u64 follow(u64 cluster)
{
	u64 count = 0;

	for (;;) {
		TURN(CLUSTERS, return FAULTY | TURNS_SPENT);
		if (cluster < 2 || cluster >= v.end)
			return FAULTY | CHAIN;
		if (used[cluster / 64] >> cluster % 64 & 1)
			return FAULTY | SHARED;
		used[cluster / 64] |= 1ull << cluster % 64;
		count++;
		cluster = next_of(cluster);
		if (cluster >= LAST)
			return count;
	}
}

/* The characters from 0 to 127 that a short name hasn't. */
#define BAD_LOW 0xd400c404ffffffff
#define BAD_HIGH 0x9000000010000000

/* Whether a short name has a character that it may not have, or one after a space. */
LOCAL(check) u64 name_fault(void)
{
	u64 space = 0;

	for (u64 i = 0; i < 11; i++) {
		u64 letter = e.name[i];

		TURN(11 * 32768, return TURNS_SPENT);
		if (i == 8)
			space = 0;
		/* (5 stands for 0xe5, which in front of a name says that it is gone) */
		if (letter == 5 && i == 0)
			continue;
		if (letter == ' ')
			space = 1;
		else if (space || (letter < 64 ? BAD_LOW >> letter : letter < 128 ? BAD_HIGH >> (letter - 64) : 0) & 1)
			return NAME;
	}
	return e.name[0] == ' ' ? NAME : 0;
}

#ifdef AS_FSCK
/* The sum of a short name that its long name has. */
INLINED u64 sum_of_name(void)
{
	u64 sum = 0;

	for (u64 i = 0; i < 11; i++) {
		TURN(11 * 32768, return FAULTY);
		sum = (((sum & 1) << 7 | sum >> 1) + e.name[i]) & 0xff;
	}
	return sum;
}
#endif

/* An entry of a file or of a directory other than the dots, which stands in the directory that starts there. */
INLINED u64 look_at_file(u64 parent)
{
	u64 start = e.start_low | (v.bits == 32 ? (u64)e.start_high << 16 : 0), count = 0;

	if (e.attributes & DIRECTORY ? !start || e.size : (!start && e.size))
		return e.attributes & DIRECTORY ? DIRECTORY_ENTRY : SIZE;
	if (start)
		count = follow(start);
	if (count & FAULTY)
		return count & ~FAULTY;
	if (e.attributes & DIRECTORY) {
		if (directories == DIRECTORIES)
			return NOT_TAKEN;
		directory_start[directories] = start;
		directory_parent[directories] = parent;
		directories++;
		return 0;
	}
	if (e.size > count * v.cluster)
		return SIZE;
#ifdef AS_FSCK
	if ((e.size + v.cluster - 1) / v.cluster != count)
		return LONGER;
#endif
	return 0;
}

/* The first two entries of a directory name it and its parent. */
INLINED u64 dots_fault(u64 number, u64 directory)
{
	u64 start = e.start_low | (v.bits == 32 ? (u64)e.start_high << 16 : 0), name = u64_in(e.name), rest = u32_in(e.name + 7);

	if (name != (number == 0 ? 0x202020202020202e : 0x2020202020202e2e) || (u32)(rest << 8) != 0x20202000 || !(e.attributes & DIRECTORY))
		return 1;
	return start != (number == 0 ? directory_start[directory] : directory_parent[directory]);
}

#ifdef AS_FSCK
/* The entry of a piece of a long name: the pieces stand in front of their short name, the last one first. */
static u64 of_long, long_sum;

LOCAL(check) u64 long_fault(void)
{
	u64 order = e.name[0];

	if (of_long ? order != of_long - 1 || long_sum != e.hundredths : !(order & 0x40) || !(order & 0x3f) || (order & 0x3f) > 20)
		return 1;
	of_long = order & 0x3f;
	long_sum = e.hundredths;
	return e.start_low || e.kind;
}
#endif

/* An entry, which stands in the directory that starts at `parent`. */
INLINED u64 look_at_entry(u64 parent)
{
	u64 fault;

	if ((e.attributes & 0x3f) == LONG && e.name[0] && e.name[0] != 0xe5) {
#ifdef AS_FSCK
		if (long_fault())
			return LONG_NAME;
#endif
		return 0;
	}
#ifdef AS_FSCK
	if (of_long && (!e.name[0] || e.name[0] == 0xe5 || of_long != 1 || sum_of_name() != long_sum))
		return LONG_NAME;
	of_long = 0;
#endif
	if (!e.name[0] || e.name[0] == 0xe5)
		return 0;
	fault = e.attributes & VOLUME ? 0 : name_fault();
	return fault ? fault : look_at_file(parent);
}

/* All entries of a directory. As Linux does, it goes on after an entry that was never used. */
LOCAL(check) u64 look_at_directory(u64 directory)
{
	u64 cluster = directory_start[directory], parent = directory ? cluster : 0, at, left, number = 0, fault;

	at = cluster ? v.data + (cluster - 2) * v.cluster : v.root;
	left = cluster ? v.cluster : v.root_size;
	for (;;) {
		TURN(65536, return TURNS_SPENT);
		if (left == 0) {
			if (cluster)
				cluster = next_of(cluster);
			if (!cluster || cluster >= LAST)
				break;
			at = v.data + (cluster - 2) * v.cluster;
			left = v.cluster;
			continue;
		}
		place = at;
		if (number && at % 512 == 0 && left >= 512 && zero(at / 512) == 1) {
			/* sixteen entries that aren't in use: the first one stands for all */
			e.name[0] = 0;
			at += 512;
			left -= 512;
		} else {
			copy(at, &e, sizeof e);
			at += 32;
			left -= 32;
		}
		if (number < 2 && directory) {
			if (dots_fault(number++, directory))
				return DOTS;
			continue;
		}
		number++;
		fault = look_at_entry(parent);
		if (fault)
			return fault;
	}
#ifdef AS_FSCK
	if (of_long)
		return LONG_NAME;
#endif
	return 0;
}

INLINED u64 look_at_directories(void)
{
	u64 fault;

	if (v.bits == 32) {
		fault = follow(v.root_cluster);
		if (fault & FAULTY)
			return fault & ~FAULTY;
		directory_start[0] = v.root_cluster;
	}
	directories = 1;
	for (u64 i = 0; i < directories; i++) {
		TURN(DIRECTORIES, return TURNS_SPENT);
		fault = look_at_directory(i);
		if (fault) {
			report(place);
			return fault;
		}
	}
	return 0;
}

#ifdef AS_FSCK
/* The copies of the FAT, the clusters that nothing has, and the number of the free ones. */
LOCAL(check) u64 look_at_rest(void)
{
	u64 free = 0, info = v.bits == 32 ? u16_at(0x30) * v.sector : 0;
	u64 sectors = (v.end * v.bits / 8 + 511) / 512, from = v.table / 512, other = from + v.table_size / 512;

	for (u64 i = 0; i < sectors && u8_at(0x10) == 2; i++) {
		TURN(4 * CLUSTERS / 512, return TURNS_SPENT);
		if (same(from + i, other + i) != 1) {
			report(from + i);
			return COPIES;
		}
	}
	for (u64 cluster = 2; cluster < v.end; cluster++) {
		u64 next = next_of(cluster);

		TURN(CLUSTERS, return TURNS_SPENT);
		free += next == 0;
		if (next && next != BAD && !(used[cluster / 64] >> cluster % 64 & 1)) {
			report(cluster);
			return LOST;
		}
	}
	if (info && (u32_at(info) != 0x41615252 || u32_at(info + 484) != 0x61417272 || u32_at(info + 508) != 0xaa550000
		     || u32_at(info + 488) != free)) {
		report(free);
		return SUMMARY;
	}
	return 0;
}
#endif

u64 check(const struct context *context)
{
	u64 fault = look_at_boot(context->sectors);

	if (!fault && (next_of(0) & 0xff) != u8_at(0x15))
		fault = FAT_START;
	if (!fault)
		fault = look_at_directories();
#ifdef AS_FSCK
	if (!fault)
		fault = look_at_rest();
#endif
	return fault;
}
