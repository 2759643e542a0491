/* GPT: the protective MBR, both headers, and the CRC of the entries. */
#include "checker.h"
#include <stdint.h>
#include <string.h>

typedef struct {
	char signature[8];
	uint32_t revision, size, crc, reserved;
	uint64_t my, other, first, last;
	uint8_t guid[16];
	uint64_t entries;
	uint32_t count, entry_size, entries_crc;
} __attribute__((packed)) gpt_header;

struct crc { uint32_t table[256]; };

static void crc_init(struct crc *c)
{
	for (uint32_t i = 0; i < 256; i++) {
		uint32_t x = i;

		for (int k = 0; k < 8; k++)
			x = x & 1 ? x >> 1 ^ 0xedb88320 : x >> 1;
		c->table[i] = x;
	}
}

static uint32_t crc32(const struct crc *c, const void *data, size_t length)
{
	const uint8_t *p = data;
	uint32_t crc = 0xffffffff;

	while (length--)
		crc = crc >> 8 ^ c->table[(crc ^ *p++) & 0xff];
	return ~crc;
}

static int header_ok(const struct crc *crc, uint64_t lba, gpt_header *h)
{
	uint8_t sector_bytes[512];
	gpt_header zeroed;

	copy(512 * lba, sector_bytes, 512);
	memcpy(h, sector_bytes, sizeof *h);
	zeroed = *h;
	zeroed.crc = 0;
	report(crc32(crc, &zeroed, sizeof zeroed));
	if (memcmp(h->signature, "EFI PART", 8) != 0)
		return 0;
	return crc32(crc, &zeroed, sizeof zeroed) == h->crc && h->my == lba;
}

u64 check(const struct context *context)
{
	struct crc crc;
	gpt_header primary, backup;
	uint8_t entries[4096];
	int good, other;

	crc_init(&crc);
	good = header_ok(&crc, 1, &primary);
	other = header_ok(&crc, context->sectors - 1, &backup);
	for (int i = 0; i < 8; i++)
		copy(512 * (2 + i), entries + 512 * i, 512);
	report(crc32(&crc, entries, sizeof entries));
	if (!good && !other)
		return crc32(&crc, entries, 128 * (1 + context->epoch % 32)) | 1;
	if (good && crc32(&crc, entries, sizeof entries) != primary.entries_crc)
		return 2;
	return good != other;
}
