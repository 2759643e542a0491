/* A redo journal in sectors 8 to 39: descriptor, its data, commit. Each committed transaction has a Fletcher checksum of all
 * of its data, and its number is the one before plus one. */
#include "checker.h"

#define JOURNAL 8
#define JOURNAL_SECTORS 32
#define DESCRIPTOR 0x43534544
#define COMMIT 0x544d4d43

struct descriptor {
	u32 magic;
	u32 count;
	u64 number;
	u64 target[16];
};

struct commit {
	u32 magic;
	u32 checksum;
	u64 number;
};

struct fletcher {
	u32 a, b;
};

static void fletcher_add(struct fletcher *sum, const u32 *words, int count)
{
	for (int i = 0; i < count; i++) {
		sum->a += words[i];
		sum->b += sum->a;
	}
}

static u32 fletcher_end(const struct fletcher *sum)
{
	return sum->a ^ (sum->b << 16 | sum->b >> 16);
}

u64 check(const struct context *context)
{
	u64 at = JOURNAL, number = 0;
	const u64 *super = sector(0);

	if (!super)
		return 9;
	number = super[1];
	while (at < JOURNAL + JOURNAL_SECTORS) {
		const struct descriptor *head = sector(at);

		if (!head)
			return 9;
		if (head->magic != DESCRIPTOR || head->number != number)
			break;
		u64 count = head->count;
		if (count == 0 || count > 16)
			return 1;

		struct fletcher sum = { 1, 0 };
		for (u64 i = 0; i < count; i++) {
			const u32 *data = sector(at + 1 + i);

			if (!data)
				return 2;
			if (head->target[i] < 40 || head->target[i] >= context->sectors)
				return 3;
			fletcher_add(&sum, data, 128);
		}

		const struct commit *tail = sector(at + 1 + count);
		if (!tail)
			return 2;
		if (tail->magic != COMMIT || tail->number != number)
			break;
		if (tail->checksum != fletcher_end(&sum)) {
			report(at);
			return 4;
		}
		at += count + 2;
		number++;
	}
	return super[2] > number ? 5 : 0;
}
