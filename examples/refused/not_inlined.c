/*
 * A local function gets numbers alone. Its parameter here is a pointer, of which nothing is known at its
 * entry, so the first read of it is refused 50. It is cured by INLINED, or by a position in place of the
 * pointer: u64 number_at(u64 position).
 *
 *     commands/cc/crashbpf-cc examples/refused/not_inlined.c not_inlined not_inlined.bpf
 */
#include "checker.h"

LOCAL(not_inlined) u64 number_at(const u8 *bytes)
{
	return (u64)bytes[0] << 8 | bytes[1];
}

u64 not_inlined(const struct context *context)
{
	const u8 *bytes = SECTOR(0, return 1);

	if (number_at(bytes) != 0x5846)
		return 2;
	return number_at(bytes + 2) > context->sectors ? 3 : 0;
}
