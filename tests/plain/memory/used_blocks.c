/* Sixteen inodes of 32 bytes in sector 1 with up to six blocks each, a bitmap in sector 2, and names of kinds. */
#include "checker.h"

struct inode {
	u16 kind, links;
	u32 size;
	u32 block[6];
};

static const struct {
	u16 kind;
	u16 most;
	const char *name;
} kinds[] = { { 0, 0, "free" }, { 1, 6, "file" }, { 2, 2, "folder" }, { 7, 1, "link" } };

static struct inode inodes[16];
static u8 bitmap[64];
static u16 used[512];
static const char *last;

static int kind_of(u64 kind)
{
	for (int i = 0; i < 4; i++)
		if (kinds[i].kind == kind)
			return i;
	return -1;
}

u64 check(const struct context *c)
{
	u64 sum = 0, free = 0;

	read_bytes(512, inodes, sizeof inodes);
	read_bytes(1024, bitmap, sizeof bitmap);
	for (u64 i = 0; i < 16; i++) {
		struct inode it = inodes[i];
		int kind = kind_of(it.kind);

		if (kind < 0)
			return 2;
		last = kinds[kind].name;
		sum += strlen(last) * (i + 1);
		if (it.size > 512 * kinds[kind].most)
			return 3;
		for (u64 k = 0; k < 6 && it.block[k]; k++) {
			if (it.block[k] >= 512)
				return 4;
			used[it.block[k]]++;
		}
	}
	report(sum);
	for (u64 i = 0; i < 512; i++) {
		if (used[i] > 1)
			return 5;
		if (used[i] && !bit_of(bitmap, i)) {
			report(i);
			return 6;
		}
		free += !used[i];
	}
	report(free);
	if (strncmp(last, "folder", 4) == 0)
		return 7;
	return bits_set(bitmap, 500) > 12 ? 8 : 0;
}
