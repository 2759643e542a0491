/* Two super blocks that are written in turns, each with an Adler-32 of its bytes. The newer valid one names the root sectors,
 * each of which has a checksum that stands in the super block. */
#include "checker.h"

#define ROOTS 8

struct super {
	u32 magic;
	u32 adler;
	u64 generation;
	u32 roots;
	u32 version;
	struct {
		u32 sector;
		u32 sum;
	} root[ROOTS];
};

static u32 adler32(const u8 *data, unsigned long length)
{
	u32 a = 1, b = 0;
	const u8 *end = data + length;

	while (data < end) {
		a = (a + *data++) % 65521;
		b = (b + a) % 65521;
	}
	return b << 16 | a;
}

static int valid(const struct super *s)
{
	return s->magic == 0x53555052 && s->roots <= ROOTS &&
	       s->adler == adler32((const u8 *)s + 8, 512 - 8);
}

u64 check(const struct context *context)
{
	const struct super *a = sector(0), *b = sector(1), *newest;

	if (!a || !b)
		return 9;
	if (valid(a) && valid(b))
		newest = a->generation > b->generation ? a : b;
	else if (valid(a))
		newest = a;
	else if (valid(b))
		newest = b;
	else
		return 1;
	if (newest->generation < context->marks)
		return 2;

	for (u32 i = 0; i < newest->roots; i++) {
		const u32 *words = sector(newest->root[i].sector);
		u32 sum = 0;

		if (!words)
			return 3;
		for (int k = 0; k < 128; k++)
			sum = (sum << 5 | sum >> 27) ^ words[k];
		if (sum != newest->root[i].sum) {
			report(newest->root[i].sector);
			return 4;
		}
	}
	return 0;
}
