/*
 * A log in a ring of blocks, from tail to head, with consecutive sequence numbers: the
 * super block has where the ring begins, its length, head, tail, and the number at the tail.
 */
#include "checker.h"

struct super_block {
	u32 magic, first, length, head, tail, sequence;
};

u64 check(const struct context *context)
{
	struct super_block super;
	u64 sequence;

	if (copy(0, &super, sizeof super))
		return 1;
	if (super.length == 0 || (u64)super.first + super.length > context->sectors)
		return 2;
	if (super.head >= super.length || super.tail >= super.length)
		return 3;
	sequence = super.sequence;
	for (u64 at = super.tail; at != super.head; at = (at + 1) % super.length) {
		TURN(64, return TURNS_SPENT);
		if (u32_at_be(512 * (super.first + at)) != 0xc03b3998)
			return 4;
		if (u32_at_be(512 * (super.first + at) + 4) != sequence)
			return 5;
		sequence++;
	}
	return 0;
}
