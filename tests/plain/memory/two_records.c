/* Two records of 420 bytes, packed, in the sectors 1 and 3; the newer one counts, as long as its text is one of a few. */
#include "checker.h"

struct record {
	u8 version;
	u64 number;
	char text[33];
	u8 rest[378];
} __attribute__((packed));

static struct record one, other, chosen, empty;
static const char *const texts[] = { "", "clean", "dirty", "in recovery" };

u64 check(const struct context *c)
{
	u64 used[2] = { 3, 0 };
	int known = 0;

	if (read_bytes(512, &one, sizeof one) || read_bytes(1536, &other, sizeof other))
		return 1;
	if (one.version > 2)
		one = empty;
	if (other.version > 2)
		other = empty;
	chosen = one.number >= other.number ? one : other;
	used[chosen.number & 1] += chosen.version;
	chosen.text[32] = 0;
	for (u64 i = 0; i < 4; i++)
		known |= strncmp(chosen.text, texts[i], 33) == 0;
	report(used[0] * 10 + used[1]);
	if (!known)
		return 2;
	if (__builtin_memcmp(chosen.rest, other.rest, 378) == 0 && one.number != other.number)
		return 3;
	memmove(chosen.rest + 3, chosen.rest, 200);
	report(chosen.rest[0] + 256 * chosen.rest[3] + 65536 * chosen.rest[202]);
	return c->marks > 2 && one.number == other.number ? 4 : 0;
}
