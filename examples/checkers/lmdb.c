/*
 * A database of LMDB in one file, data.mdb, from sector 0 on: two meta pages, and pages that are never written in place.
 *
 *     crashbpf-cc lmdb.c check lmdb.bpf --sectors 88
 *     trace_log.py lmdb/no_sync.trace no_sync.log --sectors 88
 *     crashbpf explore no_sync.log lmdb.bpf --sectors 88 --guards
 *
 * The form is that of LMDB 0.9 (MDB_page, MDB_node, MDB_db and MDB_meta in mdb.c, MDB_DATA_VERSION 1), with numbers of 64 bits,
 * little-endian, and pages of any size. It does what recovery does: of the two meta pages it takes the one of the later transaction.
 * Then it tests what LMDB trusts. In each tree, the free list and all databases in databases or of duplicates too: that a page
 * lies below the last page and has its own number, is of the kind that its depth asks for, and is used once; that its nodes
 * lie in it and fill it; that keys ascend, over the keys of branches too; that large data has its pages; that there are as many
 * branches, leaves, pages of large data and entries as the record says. Each page is in a tree or in the free list, once.
 * With a mark after each commit, no commit is lost before which a mark stands. Before the first mark there may be no database.
 *
 * What it doesn't look at: the bytes of data; the order of keys that are compared from their end (MDB_REVERSEKEY), and of
 * duplicates within a page; the size of the map. It takes an order of one's own (mdb_set_compare) for a wrong one. It holds
 * 262,144 pages and 256 trees.
 *
 * Compared with mdb_stat -e -a -ff, mdb_dump, and mdb_dump -a of LMDB 0.9.24:
 *
 *     300 databases, whole, of all kinds of keys and data     it passes all, and so do the tools
 *     300 of the 18,639 images of no_sync, bound 2            the tools fail on 31, and it on 71: on 30 of these 31
 *     75 images each of four larger databases without sync    the tools fail on 10, and it on 36: on 9 of these 10
 *
 * The two on which the tools alone fail are before the first mark, and the meta pages aren't there yet. The tools take no
 * notice of nodes that don't fill their page (10), a wrong order of keys (11), a page of large data that isn't one (12), a page
 * that is free and in use (15), or a lost commit (17). With --tears the right log has failing images too: LMDB trusts
 * that a meta page arrives whole or not at all, and it has no checksum.
 */
#include "checker.h"

#define MAGIC 0xbeefc0de
#define VERSION 1
#define PAGE_HEADER 16u
#define NODE_HEADER 8u
#define NO_PAGE 0xffffffffffffffff

/* The flags of a page, of a node, and of a database. */
enum { BRANCH = 0x01, LEAF = 0x02, OVERFLOW = 0x04, META = 0x08, FIXED_KEYS = 0x20, SUB_PAGE = 0x40 };
enum { BIG = 0x01, SUB_DATABASE = 0x02, DUPLICATES = 0x04 };
enum { REVERSE_KEY = 0x02, INTEGER_KEY = 0x08, REVERSE_DUPLICATES = 0x40 };

/* How deep a tree may be (as in LMDB), and what the checker has room for. */
#define LEVELS 32u
#define TREES 256u
#define PAGES 262144u

enum {
	NO_META = 1, BAD_META, TOO_LARGE, PAST_END, USED_TWICE, WRONG_NUMBER, WRONG_KIND, BAD_BOUNDS, BAD_NODE, BAD_FILL,
	BAD_ORDER, BAD_OVERFLOW, BAD_DUPLICATES, WRONG_COUNT, BAD_FREE_LIST, LEAKED, LOST
};

struct page {
	u64 number;
	u16 key_size, flags, lower, upper;	/* the last two are the number of pages where large data begins */
};

struct node {
	u16 low, high, flags, key_size;		/* the size of its data; in a branch its child, and flags are of it too */
};

struct database {
	u32 page_size;
	u16 flags, depth;
	u64 branches, leaves, overflows, entries, root;
};

struct meta {
	u32 magic, version;
	u64 address, map_size;
	struct database free, main;
	u64 last_page, transaction;
};

static u64 page_size, page_count, device_pages, transaction;

/* The pages that were found, in a tree or in the free list. */
static u8 found[PAGES / 8];
static u64 found_count;

/* The trees, each by the place of its record on the device, and whether the order of its keys is known. */
static struct { u64 at, ordered; } trees[TREES];
static u64 tree_count;

/* The tree at hand: its record, what was found of it, and the way from its root: of each page its next
 * node, and how many bytes its nodes have yet to fill. */
static struct database tree, seen;
static u64 is_free_list, ordered;
static struct { u64 at, next, count, unfilled; } way[LEVELS];
static u64 level;
static struct page page;

/* The key before, and whether it was that of an entry. */
static u64 last, last_size, last_is_entry, has_last;

INLINED u64 took(u64 number)
{
	if (number < 2 || number >= page_count)
		return PAST_END;
	if (bit_of(found, number))
		return USED_TWICE;
	found[number / 8] |= 1 << number % 8;
	found_count++;
	return 0;
}

/* Goes down to a page. */
INLINED u64 entered(u64 number)
{
	u64 above = level + 1 < tree.depth, fault = took(number);

	if (fault)
		return fault;
	if (number >= device_pages)
		return PAST_END;
	copy(number * page_size, &page, sizeof page);
	if (page.number != number)
		return WRONG_NUMBER;
	if (above ? page.flags != BRANCH : page.flags != LEAF && page.flags != (LEAF | FIXED_KEYS))
		return WRONG_KIND;
	if (page.lower % 2 || page.lower > page.upper || page.upper > page_size)
		return BAD_BOUNDS;
	if (page.lower < PAGE_HEADER + (above && !is_free_list ? 4 : 2))
		return BAD_BOUNDS;
	way[level].at = number * page_size;
	way[level].next = 0;
	way[level].count = (page.lower - PAGE_HEADER) / 2;
	seen.branches += above;
	seen.leaves += !above;
	way[level].unfilled = page_size - page.upper;
	return 0;
}

/* Whether the key at `a` is less than the one at `b` (0), the same (1), or greater (2). */
INLINED u64 compared(u64 a, u64 a_size, u64 b, u64 b_size)
{
	u64 least = a_size < b_size ? a_size : b_size;

	if (tree.flags & INTEGER_KEY) {
		u64 x = a_size == 4 ? u32_at(a) : u64_at(a), y = b_size == 4 ? u32_at(b) : u64_at(b);

		return x < y ? 0 : x == y ? 1 : 2;
	}
	for (u64 i = 0; i < least; i += 8) {
		u64 x = u64_at_be(a + i), y = u64_at_be(b + i);

		if (least - i < 8) {
			x >>= 8 * (8 - (least - i));
			y >>= 8 * (8 - (least - i));
		}
		if (x != y)
			return x < y ? 0 : 2;
	}
	return a_size < b_size ? 0 : a_size == b_size ? 1 : 2;
}

/* The keys, of branches too, ascend from one to the next; only the first one below a branch's key may be equal to it. */
INLINED u64 ascends(u64 key, u64 size, u64 is_entry)
{
	u64 order = has_last ? compared(last, last_size, key, size) : 0;

	if (order == 2 || (order == 1 && last_is_entry))
		return BAD_ORDER;
	last = key;
	last_size = size;
	last_is_entry = is_entry;
	has_last = 1;
	return 0;
}

/* The pages of large data, which may be more than it needs. */
INLINED u64 took_large(u64 first, u64 size)
{
	struct page head;
	u64 pages, fault;

	if (first >= device_pages)
		return report(first), PAST_END;
	copy(first * page_size, &head, sizeof head);
	pages = head.lower | (u64)head.upper << 16;
	if (head.number != first || head.flags != OVERFLOW || PAGE_HEADER + size > pages * page_size)
		return report(first), BAD_OVERFLOW;
	if (pages > device_pages - first)
		return report(first), PAST_END;
	for (u64 i = 0; i < pages; i++) {
		fault = took(first + i);
		if (fault)
			return report(first + i), fault;
	}
	seen.overflows += pages;
	return 0;
}

/* The pages that a transaction freed: its number is the key, and the data is a count and the pages. */
INLINED u64 took_free(u64 key, u64 key_size, u64 data, u64 size)
{
	u64 count = u64_at(data), fault;

	if (key_size != 8 || u64_at(key) > transaction || size < 8 || count > size / 8 - 1)
		return BAD_FREE_LIST;
	for (u64 i = 1; i <= count; i++) {
		fault = took(u64_at(data + 8 * i));
		if (fault)
			return report(u64_at(data + 8 * i)), BAD_FREE_LIST;
	}
	return 0;
}

/* Data that is a tree of its own, or a page of its own with the data of one key; or one entry. */
INLINED u64 took_entry(u64 flags, u64 data, u64 size)
{
	if (flags & SUB_DATABASE) {
		if (size != sizeof(struct database))
			return BAD_NODE;
		if (tree_count == TREES)
			return TOO_LARGE;
		trees[tree_count].at = data;
		trees[tree_count].ordered = !(flags & DUPLICATES && tree.flags & REVERSE_DUPLICATES);
		tree_count++;
		seen.entries += flags & DUPLICATES ? u64_at(data + offsetof(struct database, entries)) : 1;
	} else if (flags & DUPLICATES) {
		struct page inner;

		copy(data, &inner, sizeof inner);
		if (!(inner.flags & SUB_PAGE) || inner.lower < PAGE_HEADER || inner.lower > inner.upper || inner.upper > size)
			return BAD_DUPLICATES;
		seen.entries += (inner.lower - PAGE_HEADER) / 2;
	} else {
		seen.entries++;
	}
	return 0;
}

/* A node of the leaf at hand. */
INLINED u64 took_node(u64 data, const struct node *node, u64 key, u64 key_size)
{
	u64 size = node->low | (u64)node->high << 16, fault = 0;

	if (node->flags & BIG) {
		u64 first = u64_at(data);

		fault = took_large(first, size);
		data = first * page_size + PAGE_HEADER;
	}
	if (fault)
		return fault;
	if (is_free_list)
		fault = took_free(key, key_size, data, size);
	return fault ? fault : took_entry(node->flags, data, size);
}

/* The next node of the page at hand; the child is `below` where it is a branch. */
INLINED u64 took_next(u64 *below)
{
	u64 at = way[level].at, number = way[level].next++, is_branch = page.flags & BRANCH, offset, key, room, fault;
	struct node node;

	if (page.flags & FIXED_KEYS) {
		if (PAGE_HEADER + (number + 1) * page.key_size > page_size)
			return BAD_NODE;
		seen.entries++;
		return ordered ? ascends(at + PAGE_HEADER + number * page.key_size, page.key_size, 1) : 0;
	}
	offset = u16_at(at + PAGE_HEADER + 2 * number);
	copy(at + offset, &node, sizeof node);
	key = at + offset + NODE_HEADER;
	room = NODE_HEADER + node.key_size;
	if (!is_branch)
		room += node.flags & BIG ? 8 : node.low | (u64)node.high << 16;
	if (offset < page.upper || offset + room > page_size)
		return BAD_NODE;
	room += room % 2;
	if (room > way[level].unfilled)
		return BAD_FILL;
	way[level].unfilled -= room;
	fault = ordered && (!is_branch || number) ? ascends(key, node.key_size, !is_branch) : 0;
	if (fault)
		return fault;
	if (!is_branch)
		return took_node(key + node.key_size, &node, key, node.key_size);
	*below = node.low | (u64)node.high << 16 | (u64)node.flags << 32;
	return 0;
}

/* Walks a tree in the order of its keys. */
INLINED u64 walked(u64 record, u64 is_ordered)
{
	u64 below, fault;

	copy(record, &tree, sizeof tree);
	seen = (struct database) { 0 };
	ordered = is_ordered && !(tree.flags & REVERSE_KEY);
	level = has_last = 0;
	below = tree.root;
	if (tree.root == NO_PAGE)
		return tree.depth || tree.entries ? WRONG_COUNT : 0;
	if (tree.depth < 1 || tree.depth > LEVELS)
		return WRONG_COUNT;
	for (;;) {
		if (below != NO_PAGE) {
			fault = entered(below);
			if (fault)
				return report(below), fault;
			below = NO_PAGE;
		} else if (way[level].next == way[level].count) {
			if (way[level].unfilled && !(page.flags & FIXED_KEYS))
				return report(page.number), BAD_FILL;
			if (level == 0)
				break;
			level--;
			copy(way[level].at, &page, sizeof page);
		} else {
			fault = took_next(&below);
			if (fault)
				return report(page.number), fault;
			level += below != NO_PAGE;
		}
	}
	if (seen.branches != tree.branches || seen.leaves != tree.leaves || seen.overflows != tree.overflows
	    || seen.entries != tree.entries)
		return report(tree.root), WRONG_COUNT;
	return 0;
}

/* Of two meta pages LMDB takes the one of the later transaction, and both have to be there. */
INLINED u64 took_meta(void)
{
	struct meta first, second;

	copy(PAGE_HEADER, &first, sizeof first);
	if (!(u16_at(10) & META) || first.magic != MAGIC)
		return NO_META;
	page_size = first.free.page_size;
	if (first.version != VERSION || page_size < 512 || page_size > 65536 || page_size & (page_size - 1))
		return BAD_META;
	copy(page_size + PAGE_HEADER, &second, sizeof second);
	if (!(u16_at(page_size + 10) & META) || second.magic != MAGIC)
		return NO_META;
	if (second.version != VERSION)
		return BAD_META;
	trees[0].at = PAGE_HEADER + offsetof(struct meta, free);
	page_count = first.last_page + 1;
	transaction = first.transaction;
	if (first.transaction < second.transaction) {
		trees[0].at += page_size;
		page_count = second.last_page + 1;
		transaction = second.transaction;
	}
	trees[1].at = trees[0].at + sizeof(struct database);
	trees[0].ordered = trees[1].ordered = 1;
	tree_count = 2;
	return page_count > PAGES ? TOO_LARGE : 0;
}

u64 check(const struct context *context)
{
	u64 fault = took_meta();

	if (fault)
		return fault == NO_META && context->marks == 0 ? 0 : fault;
	device_pages = context->sectors / (page_size / 512);
	for (u64 i = 0; i < tree_count; i++) {
		is_free_list = i == 0;
		fault = walked(trees[i].at, trees[i].ordered);
		if (fault)
			return fault;
	}
	if (found_count + 2 != page_count)
		return report(found_count), LEAKED;
	return transaction < context->marks ? LOST : 0;
}
