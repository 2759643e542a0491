/* A redo log of records of any length from byte 512 on: length, sequence number, a sum of the bytes of the payload, payload. */
#include "../types.h"

struct record {
	u32 magic;
	u16 length, kind;
	u64 sequence;
	u32 sum;
};

#define MAGIC 0x4f444552
#define LOG_START 512
#define LOG_END (48 * 512)

static u32 sum_of(u64 at, u32 length)
{
	u32 a = 1, b = 0;
	u8 buffer[64];

	while (length > 0) {
		u32 n = length < sizeof buffer ? length : sizeof buffer;

		copy(at, buffer, sizeof buffer);
		for (u32 i = 0; i < n; i++) {
			a = (a + buffer[i]) % 65521;
			b = (b + a) % 65521;
		}
		at += n;
		length -= n;
	}
	return b << 16 | a;
}

u64 check(const struct context *c)
{
	struct record r;
	u64 at = LOG_START, last = 0, commits = 0;

	while (at + sizeof r <= LOG_END) {
		if (copy(at, &r, sizeof r))
			return 1;
		if (r.magic != MAGIC || r.length > 4096)
			break;
		if (r.sum != sum_of(at + sizeof r, r.length))
			break;
		if (last && r.sequence != last + 1)
			break;
		switch (r.kind) {
		case 0:
			break;
		case 1:
			commits++;
			break;
		case 2:
			if (r.length % 16)
				return 2;
			break;
		default:
			report(at);
			return 3;
		}
		last = r.sequence;
		at += (sizeof r + r.length + 7) & ~7ull;
	}
	if (commits < c->marks) {
		report(commits);
		return 4;
	}
	return 0;
}
