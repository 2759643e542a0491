/* A stream of records over sectors 2 to 9: a varint length, that many bytes, and one that is their sum. */
#include "checker.h"

struct reader {
	u64 at, end;
	int bad;
};

static u8 next(struct reader *r)
{
	if (r->at >= r->end) {
		r->bad = 1;
		return 0;
	}
	return u8_at(r->at++);
}

static u64 varint(struct reader *r)
{
	u64 value = 0;

	for (int shift = 0; shift < 28; shift += 7) {
		u8 byte = next(r);

		value |= (u64)(byte & 127) << shift;
		if (byte < 128)
			return value;
	}
	r->bad = 1;
	return 0;
}

u64 check(const struct context *context)
{
	struct reader r = { 1024, 1024 + 8 * 512, 0 };
	u64 records = 0;

	while (!r.bad && r.at < r.end) {
		u64 length = varint(&r);
		u8 sum = 0;

		if (length == 0)
			break;
		if (length > 300) {
			report(r.at);
			return 1;
		}
		for (u64 i = 0; i < length; i++)
			sum += next(&r);
		if (next(&r) != sum) {
			report(records);
			return 2;
		}
		records++;
	}
	if (r.bad)
		return 3;
	return records < context->marks ? 4 : 0;
}
