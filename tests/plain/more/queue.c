/* A persistent queue of messages of 40 bytes in a file of 16 sectors; head and tail in sector 0 never pass each other. */
#include "../types.h"

struct message {
	u64 id;
	u32 length, crc;
	char text[24];
};

struct control {
	u64 head, tail, capacity;
	char name[16];
};

static u32 crc8(const char *s, u32 n)
{
	u32 crc = 0;

	for (u32 i = 0; i < n; i++) {
		crc ^= (u8)s[i];
		for (int k = 0; k < 8; k++)
			crc = (crc & 0x80 ? crc << 1 ^ 0x07 : crc << 1) & 0xff;
	}
	return crc;
}

u64 check(const struct context *c)
{
	const struct control *q = sector(0);
	struct message m;
	u64 previous = 0;

	if (!q)
		return 1;
	if (q->capacity == 0)
		return c->marks ? 2 : 0;
	if (q->capacity != 16 * 512 / sizeof m)
		return 3;
	for (unsigned i = 0; i < sizeof q->name; i++) {
		if (q->name[i] == 0)
			break;
		if (q->name[i] < 'a' || q->name[i] > 'z')
			return 4;
	}
	if (q->head > q->tail || q->tail - q->head > q->capacity)
		return 5;
	if (q->tail < c->marks)
		return 6;
	for (u64 i = q->head; i != q->tail; i++) {
		if (copy(512 + i % q->capacity * sizeof m, &m, sizeof m))
			return 7;
		if (m.length > sizeof m.text)
			return 8;
		if (crc8(m.text, m.length) != m.crc) {
			report(i);
			return 9;
		}
		if (previous && m.id <= previous)
			return 10;
		previous = m.id;
	}
	return 0;
}
