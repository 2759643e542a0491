/*
 * A database of pages in the form of LMDB's, read by position: two meta sectors, of which the one with the greater generation
 * counts, and pages of 4 KiB from byte 4,096 on, a root above its leaves. bench/reading.py writes its log.
 *
 * A meta sector has its magic, generation, root, number of pages, and the sum of all values. A page has its kind, the number
 * of its slots, its own number, and from byte 8 on its slots: a key, and a child or a value.
 */
#include "checker.h"

u64 check(const struct context *context)
{
	u64 meta = u64_at(8) >= u64_at(512 + 8) ? 0 : 512;
	u64 root = u64_at(meta + 16), pages = u64_at(meta + 24), total = 0;
	if (u64_at(meta) != 0xBEEFC0DE) return context->marks ? 1 : 0;
	if (root >= pages) return 2;
	u64 at = 4096 + 4096 * root;
	if (u16_at(at) != 1 || u32_at(at + 4) != root) return 3;
	u64 count = u16_at(at + 2), last = 0;
	if (count > 255) return 4;
	for (u64 i = 0; i < count; i++) {
		u64 key = u64_at(at + 8 + 16 * i), child = u64_at(at + 16 + 16 * i);
		if (i && key <= last) return 5;
		last = key;
		if (child >= pages) return 6;
		u64 leaf = 4096 + 4096 * child;
		if (u16_at(leaf) != 2 || u32_at(leaf + 4) != child) return 7;
		u64 n = u16_at(leaf + 2), before = 0;
		if (n > 255) return 8;
		for (u64 j = 0; j < n; j++) {
			u64 k = u64_at(leaf + 8 + 16 * j);
			if (j && k <= before) return 9;
			if (k < key) return 10;
			before = k;
			total += u64_at(leaf + 16 + 16 * j);
		}
	}
	if (total != u64_at(meta + 32)) return 11;
	return 0;
}
