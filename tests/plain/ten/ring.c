/* A ring of records in sectors 1 to 60. Records are 64 bytes; the super block has head and tail as byte positions in the ring. */
#include "checker.h"

struct super {
	char magic[8];
	u64 head;
	u64 tail;
	u64 next_sequence;
};

struct record {
	u64 sequence;
	u32 length;
	u32 sum;
	u8 payload[48];
};

enum { OK, BAD_SUPER, BAD_BOUNDS, BAD_SEQUENCE, BAD_LENGTH, BAD_SUM, NO_SECTOR };

#define RING_BYTES (60 * 512)

static u32 sum_of(const struct record *r)
{
	u32 sum = r->sequence;

	for (u32 i = 0; i < r->length; i++)
		sum = sum * 31 + r->payload[i];
	return sum;
}

u64 check(const struct context *c)
{
	const struct super *s = sector(0);
	u64 pos, sequence;

	(void)c;
	if (!s)
		return NO_SECTOR;
	if (memcmp(s->magic, "RINGLOG1", sizeof(s->magic)))
		return BAD_SUPER;
	if (s->head >= RING_BYTES || s->tail >= RING_BYTES || s->head % 64 || s->tail % 64)
		return BAD_BOUNDS;

	u64 used = (s->tail + RING_BYTES - s->head) % RING_BYTES;
	sequence = s->next_sequence - used / 64;
	for (pos = s->head; pos != s->tail; pos = (pos + 64) % RING_BYTES) {
		const char *block = sector(1 + pos / 512);
		const struct record *r;

		if (!block)
			return NO_SECTOR;
		r = (const struct record *)(block + pos % 512);
		if (r->sequence != sequence++) {
			report(pos);
			return BAD_SEQUENCE;
		}
		if (r->length > sizeof(r->payload))
			return BAD_LENGTH;
		if (sum_of(r) != r->sum) {
			report(pos);
			return BAD_SUM;
		}
	}
	return OK;
}
