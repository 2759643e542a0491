/*
 * Two commit blocks in the middle of the device, of which recovery takes the valid one with
 * the greater generation. It trusts what that one says. Each rule has an answer of its own.
 */
#include "checker.h"

struct commit {
	u32 magic, sum;
	u64 generation, root, size;
	u8 level, unused[7];
};

#define MAGIC 0x1badb002

u64 check(const struct context *context)
{
	u64 one = context->sectors / 2 * 512, other = one + 512, newest = one;
	struct commit commit;

	if (u32_at(one) != MAGIC && u32_at(other) != MAGIC)
		return context->marks ? 1 : 0;
	if (u32_at(one) != MAGIC)
		newest = other;
	else if (u32_at(other) == MAGIC && u64_at(other + 8) > u64_at(one + 8))
		newest = other;
	if (copy(newest, &commit, sizeof commit))
		return 2;
	if (commit.generation < context->marks) {
		report(commit.generation);
		return 3;
	}
	if (commit.level > 7)
		return 4;
	if (commit.root >= context->sectors)
		return 5;
	if (commit.sum != (u32)(commit.generation ^ commit.root ^ commit.size))
		return 6;
	return zero(commit.root) == 1 ? 7 : 0;
}
