/* Accounts of a bank in sectors 2 to 5, with an intent in sector 1 that recovery rolls forward: no money comes or goes. */
#include "../types.h"

#define PER_SECTOR 64
#define ACCOUNTS 256

struct intent {
	u64 valid, from, to, amount, from_before, to_before, check;
};

static u64 balance(u64 i)
{
	const u64 *p = sector(2 + i / PER_SECTOR);

	if (!p)
		return 0;
	return p[i % PER_SECTOR];
}

static u64 hash(const struct intent *n)
{
	u64 h = 14695981039346656037ull;
	const u64 *w = (const u64 *)n;

	for (int i = 0; i < 6; i++) {
		h ^= w[i];
		h *= 1099511628211ull;
	}
	return h;
}

u64 check(const struct context *c)
{
	const struct intent *n = sector(1);
	const u64 *super = sector(0);
	u64 total = 0;

	if (!n || !super)
		return 1;
	if (super[0] != 0x4b4e4142)
		return c->marks > 0;
	for (u64 i = 0; i < ACCOUNTS; i++) {
		u64 b = balance(i);

		if (n->valid == 1 && hash(n) == n->check) {
			if (i == n->from)
				b = n->from_before - n->amount;
			if (i == n->to)
				b = n->to_before + n->amount;
		}
		if (b > super[1]) {
			report(i);
			report(b);
			return 2;
		}
		total += b;
	}
	if (total != super[1]) {
		report(total);
		return 3;
	}
	return 0;
}
