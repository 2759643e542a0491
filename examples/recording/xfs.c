/* A checker for an xfs that was formatted within the log: once it was told that it is there, the super block and the headers of
 * each of its first groups have their magic and their CRC-32C, whatever a crash left of them. So it is on each xfs with checksums
 * (version 5), since each is one sector, that is written as a whole.
 *
 *     crashbpf-cc xfs.c check xfs.bpf --sectors 2097152 --large
 *     crashbpf explore writes.log xfs.bpf --sectors 2097152 --large --guards --by write --bound any
 *
 * It replays no journal and looks at nothing else: xfs_repair finds more. */
#include "checker.h"

enum { GOOD, NO_SUPER, BROKEN_SUPER, OTHER_SIZES, NO_HEADER, BROKEN_HEADER };

#define GROUPS 4

/* Whether the CRC-32C of a sector stands at this byte of it: it is that of the sector with zeros there. */
INLINED u64 has_sum(u64 at, u64 place)
{
	u32 nothing = 0;
	u32 crc = crc32c_at(CRC32C_START, at, place);

	crc = crc32c_memory(crc, &nothing, 4);
	crc = crc32c_at(crc, at + place + 4, 508 - place);
	return (u32)~crc == u32_at(at + place);
}

u64 check(const struct context *context)
{
	u64 block = u32_at_be(4), length = u32_at_be(84), groups = u32_at_be(88);

	if (!context->marks)
		return GOOD;                                /* nothing was promised yet */
	if (u32_at_be(0) != 0x58465342)
		return NO_SUPER;
	if (!has_sum(0, 224))
		return BROKEN_SUPER;
	if (u16_at_be(102) != 512)
		return OTHER_SIZES;                         /* of a sector */
	for (u64 i = 0; i < groups && i < GROUPS; i++) {
		u64 at = i * length * block;

		TURN(GROUPS, return TURNS_SPENT);
		report(i);
		if (u32_at_be(at) != 0x58465342 || u32_at_be(at + 512) != 0x58414746 || u32_at_be(at + 1024) != 0x58414749)
			return NO_HEADER;                   /* XFSB, XAGF, XAGI */
		if (!has_sum(at, 224) || !has_sum(at + 512, 216) || !has_sum(at + 1024, 312))
			return BROKEN_HEADER;
	}
	return GOOD;
}
