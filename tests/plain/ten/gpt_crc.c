/* A GUID partition table: the header of sector 1 and its entries, each with a CRC-32, and the copy at the end of the device. */
#include "checker.h"

struct gpt_header {
	u8 signature[8];
	u32 revision;
	u32 header_size;
	u32 header_crc;
	u32 reserved;
	u64 my_lba;
	u64 other_lba;
	u64 first_usable;
	u64 last_usable;
	u8 guid[16];
	u64 entries_lba;
	u32 entry_count;
	u32 entry_size;
	u32 entries_crc;
} __attribute__((packed));

struct gpt_entry {
	u8 type[16];
	u8 guid[16];
	u64 first;
	u64 last;
	u64 attributes;
	u16 name[36];
};

static u32 crc32_update(u32 crc, u8 byte)
{
	crc ^= byte;
	for (int i = 0; i < 8; i++)
		crc = (crc >> 1) ^ (crc & 1 ? 0xedb88320 : 0);
	return crc;
}

static u32 header_crc(const u8 *p, u32 size)
{
	u32 crc = 0xffffffff;

	for (u32 i = 0; i < size; i++) {
		u8 byte = p[i];

		if (i >= 16 && i < 20)
			byte = 0;
		crc = crc32_update(crc, byte);
	}
	return ~crc;
}

static u32 check_header(const struct gpt_header *h, u64 lba)
{
	if (memcmp(h->signature, "EFI PART", 8) != 0)
		return 1;
	if (h->header_size != 92 || h->entry_size != 128 || h->entry_count > 16)
		return 2;
	if (h->my_lba != lba)
		return 3;
	if (header_crc((const u8 *)h, h->header_size) != h->header_crc)
		return 4;
	return 0;
}

u64 check(const struct context *ctx)
{
	const struct gpt_header *h = sector(1);
	u64 lba = 1;

	if (!h)
		return 9;
	if (check_header(h, lba) != 0) {
		lba = ctx->sectors - 1;
		h = sector(lba);
		if (!h || check_header(h, lba) != 0)
			return 1;
	}

	u32 crc = 0xffffffff;
	for (u32 i = 0; i < h->entry_count; i++) {
		const u8 *block = sector(h->entries_lba + i / 4);

		if (!block)
			return 2;
		const struct gpt_entry *e = (const struct gpt_entry *)(block + i % 4 * 128);
		if (e->first && (e->first < h->first_usable || e->last > h->last_usable || e->last < e->first)) {
			report(i);
			return 3;
		}
		for (int k = 0; k < 128; k++)
			crc = crc32_update(crc, block[i % 4 * 128 + k]);
	}
	return ~crc == h->entries_crc ? 0 : 4;
}
