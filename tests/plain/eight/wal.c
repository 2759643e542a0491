/* A write-ahead log in sectors 8 to 39: frames of one sector, chained by a running checksum over 8-byte words. */
#include "checker.h"

struct frame {
	u32 magic;
	u32 page;
	u32 salt;
	u32 commit;
	u64 words[61];
	u32 sum1;
	u32 sum2;
};

static void add(const u64 *from, int count, u32 *a, u32 *b)
{
	const u64 *end = from + count;

	while (from < end) {
		*a += (u32)*from + *b;
		*b += (u32)(*from >> 32) + *a;
		from++;
	}
}

u64 check(const struct context *context)
{
	const struct frame *first = sector(8);
	u32 a = 1, b = 2, salt = 0;
	int frames = 0, committed = 0;

	for (u64 n = 8; n < 40; n++) {
		const struct frame *frame = sector(n);

		if (frame->magic != 0x377f0682)
			break;
		if (n == 8)
			salt = first->salt;
		if (frame->salt != salt)
			break;
		add(frame->words, 61, &a, &b);
		if (frame->sum1 != a || frame->sum2 != b)
			break;
		if (frame->page == 0 || frame->page >= 8) {
			report(frame->page);
			return 2;
		}
		frames++;
		if (frame->commit)
			committed = frames;
	}
	return committed < (int)context->marks ? 1 : 0;
}
