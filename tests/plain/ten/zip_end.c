/* A zip archive: the end record is looked for from the end, then the central directory is walked, and each local header has to
 * agree with its entry. */
#include "checker.h"

static u8 byte(u64 at)
{
	const u8 *p = sector(at / 512);

	return p ? p[at % 512] : 0;
}

static u32 le16(u64 at)
{
	return byte(at) | byte(at + 1) << 8;
}

static u32 le32(u64 at)
{
	return le16(at) | le16(at + 2) << 16;
}

static int same_name(u64 a, u64 b, u32 length)
{
	for (u32 i = 0; i < length; i++)
		if (byte(a + i) != byte(b + i))
			return 0;
	return 1;
}

u64 check(const struct context *context)
{
	u64 size = context->sectors * 512, end = size - 22;

	while (end > 0 && le32(end) != 0x06054b50)
		end--;
	if (end == 0)
		return 1;

	u32 entries = le16(end + 10), length = le32(end + 12);
	u64 at = le32(end + 16), stop = at + length;
	if (stop > end)
		return 2;

	u32 seen = 0;
	while (at < stop) {
		if (le32(at) != 0x02014b50)
			return 3;
		u32 name = le16(at + 28), extra = le16(at + 30), comment = le16(at + 32);
		u64 local = le32(at + 42);

		if (local + 30 > size || le32(local) != 0x04034b50) {
			report(seen);
			return 4;
		}
		if (le32(local + 14) != le32(at + 16) || le16(local + 26) != name)
			return 5;
		if (!same_name(at + 46, local + 30, name))
			return 6;
		at += 46 + name + extra + comment;
		seen++;
	}
	return seen == entries ? 0 : 7;
}
