/* A journal in the sectors 2 to 17: each record is a header with a number, a count and up to eight home sectors, then the
 * content of these. What stands last for a sector wins. After the replay sector 1 says how many words each block has. */
#include "checker.h"

#define FIRST 2
#define END 18
#define MAGIC 0x4c4e524a

struct header {
	u32 magic, number, count, sum;
	u32 home[8];
};

/* Where each sector stands after the replay. */
static u32 place[64];
static u64 counts[64];

static u64 word_of(u64 sector, u64 index)
{
	u64 at = place[sector] ? place[sector] : sector;

	return u64_at(512 * at + 8 * index);
}

u64 check(const struct context *c)
{
	u64 at = FIRST, number = u32_at(512 * FIRST + 4), records = 0, n = c->sectors < 64 ? c->sectors : 64;
	struct header head;

	while (at < END) {
		copy(512 * at, &head, sizeof head);
		if (head.magic != MAGIC || head.number != number || head.count > 8)
			break;
		if (at + 1 + head.count > END)
			return 2;
		for (u64 i = 0; i < head.count; i++) {
			if (head.home[i] >= n)
				return 3;
			place[head.home[i]] = at + 1 + i;
		}
		at += 1 + head.count;
		number++;
		records++;
	}
	report(records);
	for (u64 i = 18; i < n; i++)
		for (u64 k = 0; k < 4; k++)
			counts[i] += word_of(i, k) != 0;
	for (u64 i = 18; i < n; i++)
		if (u8_at(512 + i) > 4 || (u8_at(512 + i) && counts[i] != u8_at(512 + i)))
			return 4;
	return records > 3;
}
