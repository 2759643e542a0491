/* A hash index in sectors 1 to 4: 128 slots of 16 bytes, linear probing. Each key that is in use has to be found. */
#include "checker.h"

struct slot {
	u32 key;
	u32 flags;
	u64 value;
};

static const struct slot *slot_at(u64 i)
{
	const struct slot *slots = sector(1 + i / 32);

	return &slots[i % 32];
}

static u32 hash(u32 key)
{
	key ^= key >> 16;
	key *= 0x45d9f3b;
	key ^= key >> 13;
	return key;
}

static int find(u32 key)
{
	u32 at = hash(key) % 128;

	for (int probes = 0; probes < 128; probes++) {
		const struct slot *slot = slot_at(at);

		if (slot->flags == 0)
			return -1;
		if (slot->key == key && (slot->flags & 1))
			return (int)at;
		at = (at + 1) & 127;
	}
	return -1;
}

u64 check(const struct context *context)
{
	u32 used = 0;

	if (u32_at(0) != 0x48534148)
		return context->marks != 0;
	for (int i = 0; i < 128; i++) {
		const struct slot *slot = slot_at(i);

		if (!(slot->flags & 1))
			continue;
		used++;
		if (find(slot->key) < 0) {
			report(i);
			return 3;
		}
		if (slot->value >= context->sectors)
			return 4;
	}
	return used == u32_at(4) ? 0 : 5;
}
