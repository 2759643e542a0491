/*
 * A database of SQLite and its rollback journal, as two files on one device: crashbpf-record lays them out so, and its files.h has
 * the numbers that stand below. The database begins at sector 0 here, and the journal at sector 8.
 *
 *     crashbpf-cc rollback_journal.c check rollback_journal.bpf --sectors 16
 *     trace_log.py rollback_journal/no_sync.trace no_sync.log --sectors 16
 *     crashbpf explore no_sync.log rollback_journal.bpf --sectors 16 --base rollback_journal/base.img --guards
 *
 * The form is that of https://www.sqlite.org/fileformat2.html, and the replay that of pager_playback in pager.c. It does what
 * recovery does: where the journal is hot, which is where its first byte isn't 0, a page is as the journal has it, header after
 * header, up to the first header or record that isn't valid; and the database is as long as the first header says. Else a page
 * is as the database has it. Then it tests what SQLite trusts: the database's header and its number of pages; the tree of the
 * schema and each tree that a row of it names: that a page is in use once, the kind and the depth of each, that cells and free
 * blocks lie in it and are, with the fragments, all of its content; that rows ascend; that the rest of a long payload is there.
 * Then the free list, that each page is in a tree or free, and that an index has as many entries as its table has rows.
 * With a mark after each commit, no commit is lost before which a mark stands, by the change counter.
 *
 * What it doesn't look at: the order of an index; whether an index has the very rows of its table, and how many a partial index
 * has; the values in rows; in auto_vacuum the pages that say which page names each one. It answers 2 where there is a write-ahead
 * log, or a journal that belongs to a commit of several databases. It holds 4,095 pages and 128 trees.
 *
 * Compared with PRAGMA integrity_check of SQLite 3.40.1, which replays the journal itself:
 *
 *     300 databases, with pages of 512 to 65,536 bytes        all pass both; 148 have a hot journal, and 136 of these
 *                                                             fail without it
 *     300 of the 10,945 images of no_sync, bound 2            63 are broken; it fails on these, and on 7 others
 *     300 of the 11,316 images of no_sync, bound 1, --tears   32 are broken; it fails on these, and on 3 others
 *     75 images each of four larger databases without sync    38 are broken; it fails on 33 of these, and on no other
 *
 * The ten others lack a commit, which integrity_check doesn't know. Of the five that it passes three have an index with other
 * rows than its table, and as many, and two a partial index with too few or too many.
 */
#include "checker.h"

/* Where the two files lie on the device, as files.h of the recording has it, and their lengths in bytes. */
#define DATABASE (512 * 0ull)
#define DATABASE_LENGTH 3072ull
#define JOURNAL (512 * 8ull)
#define JOURNAL_LENGTH 3112ull

/* What the database counted as its commits (its change counter) when the recording began. */
#define COMMITS_BEFORE 5u

#define DATABASE_MAGIC_1 0x53514c6974652066	/* "SQLite format 3" and a zero byte */
#define DATABASE_MAGIC_2 0x6f726d6174203300
#define JOURNAL_MAGIC 0xd9d505f920a163d7
#define TO_THE_END 0xffffffff

/* The types of pages. */
enum { INDEX_BRANCH = 2, TABLE_BRANCH = 5, INDEX_LEAF = 10, TABLE_LEAF = 13 };

/* How deep a tree may be (as in SQLite), and what the checker has room for. */
#define LEVELS 20u
#define TREES 128u
#define PAGES 4095u

enum {
	BAD_HEADER = 1, NOT_LOOKED_AT, TOO_LARGE, PAST_END, USED_TWICE, WRONG_KIND, BAD_DEPTH, BAD_BOUNDS, BAD_CELL, BAD_FILL,
	BAD_FREE_BLOCK, BAD_ORDER, BAD_OVERFLOW, BAD_SCHEMA, BAD_FREE_LIST, LEAKED, WRONG_COUNT, LOST
};

static u64 page_size, usable, page_count;

/* Where a page stands on the device, where it isn't its place in the database: in the journal. */
static u32 replayed[PAGES + 1];

/* The pages that were found, in a tree, in the free list, or elsewhere. */
static u8 found[PAGES / 8 + 1];
static u64 found_count;

/* The trees: the root, how many entries it has, which table it is of, and whether it is an index of all its rows. */
static struct { u64 root, entries, table, is_table, is_whole_index; } trees[TREES];
static u64 tree_count;

/* The tree at hand, and the way from its root: of each page its place, how many children it has, and which is next. */
static u64 tree, is_table, leaf_level, entries;
static struct { u64 at, head, next, count; } way[LEVELS];
static u64 level, is_leaf;

/* The row before, by its number. */
static u64 last_row, has_row;

/* The bytes of the page at hand that are of a cell or free, one bit for each, and how many. */
static u64 taken[1024];
static u64 taken_count;

/* The cell at hand: its payload, how much of it stands in the page, where, and the page that has the rest. */
static u64 payload, local, local_at, rest;

INLINED u64 place_of(u64 number)
{
	return replayed[number] ? replayed[number] : DATABASE + (number - 1) * page_size;
}

INLINED u64 took(u64 number)
{
	if (number < 1 || number > page_count)
		return PAST_END;
	if (bit_of(found, number))
		return USED_TWICE;
	found[number / 8] |= 1 << number % 8;
	found_count++;
	return 0;
}

/* A number of one to nine bytes; where it ends is kept. */
static u64 varint_end;

LOCAL(check) u64 varint_at(u64 at)
{
	u64 value = 0, byte;

	UNROLLED_
	for (u64 i = 0; i < 8; i++) {
		byte = u8_at(at++);
		value = value << 7 | (byte & 0x7f);
		if (byte < 0x80) {
			varint_end = at;
			return value;
		}
	}
	varint_end = at + 1;
	return value << 8 | u8_at(at);
}

/* The checksum of a page in the journal: of each 200th byte from its end on. */
INLINED u64 sum_of(u64 at, u64 size, u64 seed)
{
	u32 sum = seed;

	for (u64 i = size - 200; i > 0 && i < size; i -= 200)
		sum += u8_at(at + i);
	return sum;
}

/* What a journal has where it is hot: each page up to its first bad record. Then the database is as long as it was before. */
INLINED u64 replay(void)
{
	u64 at = 0, sector_size = 512, size = 0, seed = 0, left = 0, pages = 0, number;

	page_count = PAGES + 1;
	if (u8_at(JOURNAL) == 0)
		return 0;
	if (u64_at_be(JOURNAL + JOURNAL_LENGTH - 8) == JOURNAL_MAGIC)
		return NOT_LOOKED_AT;
	for (;;) {
		if (left == 0) {
			at = (at + sector_size - 1) / sector_size * sector_size;
			if (at + sector_size > JOURNAL_LENGTH || u64_at_be(JOURNAL + at) != JOURNAL_MAGIC)
				return 0;
			left = u32_at_be(JOURNAL + at + 8);
			seed = u32_at_be(JOURNAL + at + 12);
			if (at == 0) {
				pages = u32_at_be(JOURNAL + 16);
				sector_size = u32_at_be(JOURNAL + 20);
				size = u32_at_be(JOURNAL + 24);
				if (sector_size < 32 || sector_size > 65536 || sector_size & (sector_size - 1))
					return 0;
				if (size < 512 || size > 65536 || size & (size - 1))
					return 0;
				if (pages > PAGES)
					return TOO_LARGE;
				page_count = pages;
			}
			at += sector_size;
			if (left == TO_THE_END)
				left = (JOURNAL_LENGTH - sector_size) / (size + 8);
			else if (left == 0)
				continue;
		}
		if (at + 4 + size + 4 > JOURNAL_LENGTH)
			return 0;
		number = u32_at_be(JOURNAL + at);
		if (number == 0)
			return 0;
		if (number <= pages) {
			if (sum_of(JOURNAL + at + 4, size, seed) != u32_at_be(JOURNAL + at + 4 + size))
				return 0;
			replayed[number] = JOURNAL + at + 4;
		}
		at += 4 + size + 4;
		left--;
	}
}

/* The header of the database, in its first page. */
INLINED u64 took_header(void)
{
	u64 at = replayed[1] ? replayed[1] : DATABASE, pages;

	if (u64_at_be(at) != DATABASE_MAGIC_1 || u64_at_be(at + 8) != DATABASE_MAGIC_2)
		return BAD_HEADER;
	page_size = u16_at_be(at + 16);
	if (page_size == 1)
		page_size = 65536;
	usable = page_size - u8_at(at + 20);
	if (page_size < 512 || page_size & (page_size - 1) || usable < 480)
		return BAD_HEADER;
	if (u8_at(at + 18) == 2 && u8_at(at + 19) == 2)
		return NOT_LOOKED_AT;			/* with a write-ahead log */
	if (u8_at(at + 18) != 1 || u8_at(at + 19) != 1 || u8_at(at + 21) != 64 || u8_at(at + 22) != 32 || u8_at(at + 23) != 32)
		return BAD_HEADER;
	if (u32_at_be(at + 44) > 4 || u32_at_be(at + 56) > 3)
		return BAD_HEADER;			/* the formats of the schema, and of texts */
	pages = page_count > PAGES ? DATABASE_LENGTH / page_size : page_count;
	page_count = u32_at_be(at + 28);
	if (page_count == 0 || u32_at_be(at + 24) != u32_at_be(at + 92))
		page_count = pages;
	if (page_count > pages)
		return PAST_END;
	return page_count > PAGES ? TOO_LARGE : 0;
}

/* Takes bytes of the page at hand, each once. */
INLINED u64 took_bytes(u64 from, u64 to)
{
	taken_count += to - from;
	while (from < to) {
		u64 end = (from | 63) + 1 < to ? (from | 63) + 1 : to;
		u64 mask = ~0ull >> (64 - (end - from)) << from % 64;

		if (taken[from / 64] & mask)
			return BAD_FILL;
		taken[from / 64] |= mask;
		from = end;
	}
	return 0;
}

/* The pages that have the rest of a payload. */
INLINED u64 took_rest(void)
{
	u64 number = rest, fault;

	for (u64 left = payload - local; left > 0; left -= left < usable - 4 ? left : usable - 4) {
		fault = took(number);
		if (fault)
			return report(number), fault == PAST_END ? BAD_OVERFLOW : fault;
		number = u32_at_be(place_of(number));
	}
	return number ? BAD_OVERFLOW : 0;
}

/* How many bytes a column takes, by its type. */
INLINED u64 column_size(u64 type)
{
	return type >= 12 ? (type - 12) / 2 : type < 5 ? type : type == 5 ? 6 : type < 8 ? 8 : 0;
}

/* A row of the schema: its kind, its name, its table, its root and its text. Where it has a root it is a tree. */
INLINED u64 took_row(void)
{
	u64 start = varint_at(local_at), header_end = local_at + start, ends[5], end = start, type;
	u64 place = local_at + start, room = local - start, number = rest, byte;
	u64 kind = 0, table = 0, root = 0, text = 0;

	if (start > local)
		return NOT_LOOKED_AT;
	for (u64 i = 0; i < 5; i++) {
		type = varint_at(varint_end);
		end += column_size(type);
		ends[i] = end;
		if (i == 3 && (type == 7 || type > 9))
			return BAD_SCHEMA;
		if (i == 3 && type == 9)
			root = 1;
	}
	if (varint_end != header_end || end > payload)
		return BAD_SCHEMA;
	for (u64 i = start; i < end; i++) {
		if (room == 0) {
			place = place_of(number) + 4;
			room = usable - 4;
			number = u32_at_be(place - 4);
		}
		byte = u8_at(place++);
		room--;
		if (i == start)
			kind = byte;
		if (i >= ends[1] && i < ends[2])
			table = table * 1099511628211 + byte + 1;
		if (i >= ends[2] && i < ends[3])
			root = root << 8 | byte;
		if (i >= ends[3] && root == 0)
			break;
		/* an index with `where` may have fewer entries than its table has rows */
		if (i >= ends[3] && text != 0x7768657265)
			text = (text << 8 | byte | 0x20) & 0xffffffffff;
	}
	if (root == 0)
		return 0;
	if (tree_count == TREES)
		return TOO_LARGE;
	trees[tree_count].root = root;
	trees[tree_count].table = table;
	trees[tree_count].is_table = kind == 't';
	trees[tree_count].is_whole_index = kind == 'i' && text != 0x7768657265;
	tree_count++;
	return 0;
}

/* A cell of the page at hand, at `offset` of it. */
INLINED u64 took_cell(u64 page_at, u64 offset)
{
	u64 start = page_at + offset, at = is_leaf ? start : start + 4, row = 0, most, least, fault;

	payload = local = 0;
	if (is_leaf || !is_table) {
		payload = varint_at(at);
		at = varint_end;
	}
	if (is_table) {
		row = varint_at(at);
		at = varint_end;
	}
	most = is_table ? usable - 35 : (usable - 12) * 64 / 255 - 23;
	least = (usable - 12) * 32 / 255 - 23;
	local = payload;
	if (payload > most) {
		local = least + (payload - least) % (usable - 4);
		if (local > most)
			local = least;
		rest = u32_at_be(at + local);
	}
	local_at = at;
	at += local < payload ? local + 4 : local;
	if (at < start + 4)
		at = start + 4;
	if (at - page_at > usable)
		return BAD_CELL;
	fault = took_bytes(offset, at - page_at);
	if (!fault && local < payload)
		fault = took_rest();
	if (fault)
		return fault;
	entries += is_leaf || !is_table;
	if (is_leaf && is_table) {
		if (has_row && (long long)row <= (long long)last_row)
			return BAD_ORDER;
		last_row = row;
		has_row = 1;
		return tree == 0 ? took_row() : 0;
	}
	return 0;
}

/* The free blocks of a page, a list in the order of their places. */
INLINED u64 took_free_blocks(u64 page_at, u64 first, u64 content)
{
	u64 least = content, size, fault;

	for (u64 block = first; block > 0; block = u16_at_be(page_at + block)) {
		size = u16_at_be(page_at + block + 2);
		if (block < least || size < 4 || block + size > usable)
			return BAD_FREE_BLOCK;
		fault = took_bytes(block, block + size);
		if (fault)
			return fault;
		least = block + size + 4;
	}
	return 0;
}

/* Goes down to a page, and takes all that is in it. */
INLINED u64 entered(u64 number)
{
	u64 fault = took(number), at, head, type, count, content, cells, offset;

	if (fault)
		return fault;
	at = place_of(number);
	head = number == 1 ? at + 100 : at;
	type = u8_at(head);
	count = u16_at_be(head + 3);
	content = u16_at_be(head + 5);
	if (content == 0)
		content = 65536;
	if (type != INDEX_BRANCH && type != TABLE_BRANCH && type != INDEX_LEAF && type != TABLE_LEAF)
		return WRONG_KIND;
	is_leaf = type == INDEX_LEAF || type == TABLE_LEAF;
	if (level == 0)
		is_table = type == TABLE_BRANCH || type == TABLE_LEAF;
	else if (is_table != (type == TABLE_BRANCH || type == TABLE_LEAF))
		return WRONG_KIND;
	if (is_leaf && leaf_level != LEVELS && leaf_level != level)
		return BAD_DEPTH;
	if (is_leaf)
		leaf_level = level;
	cells = head - at + (is_leaf ? 8 : 12);
	if (cells + 2 * count > content || content > usable)
		return BAD_BOUNDS;
	for (u64 i = 0; i < (usable + 63) / 64; i++)
		taken[i] = 0;
	taken_count = 0;
	for (u64 i = 0; i < count; i++) {
		offset = u16_at_be(at + cells + 2 * i);
		if (offset < content || offset > usable - 4)
			return BAD_CELL;
		fault = took_cell(at, offset);
		if (fault)
			return fault;
	}
	fault = took_free_blocks(at, u16_at_be(head + 1), content);
	if (fault)
		return fault;
	if (content + taken_count + u8_at(head + 7) != usable)
		return BAD_FILL;
	way[level].at = at;
	way[level].head = head;
	way[level].next = 0;
	way[level].count = is_leaf ? 0 : count + 1;
	return 0;
}

/* The next child of the branch at hand; before it the number of a row, from which on the rows of the child are. */
INLINED u64 took_child(u64 *below)
{
	u64 at = way[level].at, cells = way[level].head + 12, number = way[level].next++, row;

	if (is_table && number > 0) {
		row = varint_at(at + u16_at_be(cells + 2 * (number - 1)) + 4);
		if (has_row && (long long)row < (long long)last_row)
			return BAD_ORDER;
		last_row = row;
		has_row = 1;
	}
	*below = number + 1 == way[level].count ? u32_at_be(way[level].head + 8) : u32_at_be(at + u16_at_be(cells + 2 * number));
	level++;
	return level == LEVELS ? BAD_DEPTH : 0;
}

/* Walks a tree in its order. */
INLINED u64 walked(u64 root)
{
	u64 below = root, going = 1, fault;

	level = has_row = entries = 0;
	leaf_level = LEVELS;
	for (;;) {
		if (going) {
			fault = entered(below);
			if (fault)
				return report(below), fault;
			going = 0;
		} else if (way[level].next < way[level].count) {
			fault = took_child(&below);
			if (fault)
				return report(root), fault;
			going = 1;
		} else if (level > 0) {
			level--;
		} else {
			return 0;
		}
	}
}

/* The free list: pages that each name the next one, and more free pages. */
INLINED u64 took_free_list(u64 header)
{
	u64 number = u32_at_be(header + 32), left = u32_at_be(header + 36), count, at;

	while (number) {
		if (left == 0 || took(number))
			return report(number), BAD_FREE_LIST;
		left--;
		at = place_of(number);
		count = u32_at_be(at + 4);
		if (count > usable / 4 - 2 || count > left)
			return report(number), BAD_FREE_LIST;
		for (u64 i = 0; i < count; i++)
			if (took(u32_at_be(at + 8 + 4 * i)))
				return report(u32_at_be(at + 8 + 4 * i)), BAD_FREE_LIST;
		left -= count;
		number = u32_at_be(at);
	}
	return left ? BAD_FREE_LIST : 0;
}

/* An index has an entry for each row of its table. */
INLINED u64 counts_agree(void)
{
	for (u64 i = 0; i < tree_count; i++) {
		if (!trees[i].is_whole_index)
			continue;
		for (u64 k = 0; k < tree_count; k++)
			if (trees[k].is_table && trees[k].table == trees[i].table && trees[k].entries != trees[i].entries)
				return report(trees[i].root), WRONG_COUNT;
	}
	return 0;
}

u64 check(const struct context *context)
{
	u64 fault = replay(), header;

	if (!fault)
		fault = took_header();
	if (fault)
		return fault;
	header = place_of(1);
	trees[0].root = 1;
	tree_count = 1;
	for (tree = 0; tree < tree_count; tree++) {
		fault = walked(trees[tree].root);
		if (fault)
			return fault;
		trees[tree].entries = entries;
	}
	fault = took_free_list(header);
	if (fault)
		return fault;
	if (u32_at_be(header + 52))			/* auto_vacuum: pages that say which page names each one */
		for (u64 number = 2; number <= page_count; number += usable / 5 + 1)
			if (took(number))
				return report(number), USED_TWICE;
	if (found_count != page_count)
		return report(found_count), LEAKED;
	fault = counts_agree();
	if (fault)
		return fault;
	return (u32)(u32_at_be(header + 24) - COMMITS_BEFORE) < context->marks ? LOST : 0;
}
