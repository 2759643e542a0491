/* The newer of two super blocks with a Fletcher sum is taken; its free count has to be that of the bitmap. */
#include "../types.h"

struct super {
	u32 magic, generation;
	u32 blocks, free;
	u32 bitmap, bitmap_sectors;
	u8 label[16];
	u8 pad[464];
	u32 sum;
};

static const u8 bits_of[16] = { 0, 1, 1, 2, 1, 2, 2, 3, 1, 2, 2, 3, 2, 3, 3, 4 };

static u32 fletcher(const struct super *s)
{
	const u16 *w = (const u16 *)s;
	u32 a = 0, b = 0;

	for (size_t i = 0; i < sizeof *s / 2 - 2; i++) {
		a = (a + w[i]) % 65535;
		b = (b + a) % 65535;
	}
	return b << 16 | a;
}

static int valid(const struct super *s)
{
	return s && s->magic == 0x52455053 && fletcher(s) == s->sum;
}

u64 check(const struct context *c)
{
	const struct super *a = sector(0), *b = sector(c->sectors - 1), *s = 0;
	u32 used = 0;

	if (valid(a))
		s = a;
	if (valid(b) && (!s || (s32)(b->generation - s->generation) > 0))
		s = b;
	if (!s)
		return c->marks ? 1 : 0;
	if (s->generation < c->marks)
		return 2;
	if (s->bitmap_sectors > 4 || s->bitmap + s->bitmap_sectors > c->sectors)
		return 3;
	for (u32 i = 0; i < s->bitmap_sectors; i++) {
		const u8 *map = sector(s->bitmap + i);

		for (int j = 0; j < 512; j++)
			used += bits_of[map[j] & 15] + bits_of[map[j] >> 4];
	}
	if (used + s->free != s->blocks) {
		report(used);
		report(s->free);
		return 4;
	}
	return 0;
}
