/* A ring of journal blocks in sectors 8 to 39, in big-endian order as JBD2 writes it: descriptor, data, commit. */
#include "../types.h"

#define FIRST 8
#define LENGTH 32

struct jheader { u32 magic, type, sequence; };

static inline u32 be32(u32 x)
{
	return (x & 0xff) << 24 | (x & 0xff00) << 8 | (x >> 8 & 0xff00) | x >> 24;
}

static u64 next(u64 block)
{
	return block + 1 == FIRST + LENGTH ? FIRST : block + 1;
}

u64 check(const struct context *c)
{
	const u32 *super = sector(1);
	u64 block;
	u32 sequence, committed = 0;

	if (!super)
		return 1;
	if (be32(super[0]) != 0xc03b3998)
		return c->marks ? 2 : 0;
	block = be32(super[7]);
	sequence = be32(super[6]);
	if (block == 0)
		return 0;
	if (block < FIRST || block >= FIRST + LENGTH)
		return 3;
	for (;;) {
		const struct jheader *h = sector(block);
		u32 tags = 0;

		if (!h || be32(h->magic) != 0xc03b3998 || be32(h->sequence) != sequence)
			break;
		if (be32(h->type) != 1) {
			report(block);
			return 4;
		}
		const u32 *tag = (const u32 *)(h + 1);
		while (tags < 60 && !(be32(tag[2 * tags + 1]) & 8))
			tags++;
		for (u32 i = 0; i <= tags; i++)
			block = next(block);
		block = next(block);
		h = sector(block);
		if (!h || be32(h->magic) != 0xc03b3998 || be32(h->type) != 2 || be32(h->sequence) != sequence)
			break;
		committed++;
		sequence++;
		block = next(block);
	}
	if (committed + be32(super[8]) < c->marks)
		return 5;
	return 0;
}
