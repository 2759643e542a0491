/* Each sector begins with its type, and each type has a rule of its own. */
#include "checker.h"

struct header {
	u8 type, flags;
	u16 length;
	u32 unused;
	u64 first, last;
};

u64 check(const struct context *context)
{
	for (u64 i = 0; i < context->sectors; i++) {
		const struct header *header;

		TURN(64, return TURNS_SPENT);
		header = SECTOR(i, return TURNS_SPENT);
		switch (header->type) {
		case 0:
			if (zero(i) != 1)
				return 1;
			break;
		case 1:
			if (header->first >= context->sectors)
				return 2;
			break;
		case 2:
			if (header->first > header->last)
				return 3;
			break;
		case 3:
			if (header->length > 488)
				return 4;
			break;
		case 4:
			if (header->flags > 3)
				return 5;
			break;
		default:
			return 6;
		}
	}
	return 0;
}
