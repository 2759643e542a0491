/* FAT16: the boot sector, the two copies of the table, and each file of the root directory has as many clusters as its size needs. */
#include "checker.h"

struct boot {
	u8 jump[3];
	char oem[8];
	u16 sector_size;
	u8 cluster_sectors;
	u16 reserved;
	u8 fats;
	u16 root_entries;
	u16 total;
	u8 media;
	u16 fat_sectors;
} __attribute__((packed));

struct dirent {
	u8 name[11];
	u8 attributes;
	u8 other[14];
	u16 cluster;
	u32 size;
} __attribute__((packed));

static int fat_entry(const struct boot *boot, u32 cluster)
{
	const u16 *fat = sector(boot->reserved + cluster / 256);

	return fat ? fat[cluster % 256] : -1;
}

static u32 chain_length(const struct boot *boot, u32 cluster)
{
	u32 length = 0;

	while (cluster >= 2 && cluster < 0xfff0 && length < 200) {
		int next = fat_entry(boot, cluster);

		if (next < 0)
			return 1000;
		length++;
		cluster = next;
	}
	return length;
}

u64 check(const struct context *context)
{
	const struct boot *boot = sector(0);
	const u8 *end = sector(0);

	if (!boot)
		return 9;
	if (end[510] != 0x55 || end[511] != 0xaa)
		return 1;
	if (boot->sector_size != 512 || boot->fats != 2 || boot->cluster_sectors != 1)
		return 2;
	if (boot->total > context->sectors)
		return 3;

	for (u32 i = 0; i < boot->fat_sectors; i++) {
		u32 a = boot->reserved + i, b = a + boot->fat_sectors;

		if (same(a, b) != 1) {
			report(a);
			return 4;
		}
	}

	u32 root = boot->reserved + 2 * boot->fat_sectors;
	for (u32 i = 0; i < boot->root_entries; i++) {
		const struct dirent *block = sector(root + i / 16);

		if (!block)
			return 5;
		const struct dirent *entry = &block[i % 16];
		if (entry->name[0] == 0)
			break;
		if (entry->name[0] == 0xe5 || entry->attributes & 0x18)
			continue;
		if (chain_length(boot, entry->cluster) != (entry->size + 511) / 512) {
			report(i);
			return 6;
		}
	}
	return 0;
}
