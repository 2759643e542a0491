/*
 * A boot sector as FAT has it: a packed struct with fields that aren't aligned, read
 * in place. The data area begins where reserved sectors, tables and root directory
 * end, and the tables have to have room for each of its clusters.
 */
#include "checker.h"

struct __attribute__((packed)) boot_sector {
	u8 jump[3];
	u8 name[8];
	u16 sector_size;
	u8 cluster_sectors;
	u16 reserved;
	u8 tables;
	u16 root_entries;
	u16 sectors;
	u8 medium;
	u16 table_sectors;
};

u64 check(const struct context *context)
{
	const struct boot_sector *boot = SECTOR(0, return 1);
	u64 cluster = boot->cluster_sectors, sectors = boot->sectors, data;

	if (boot->sector_size != 512)
		return 2;
	if (cluster == 0 || (cluster & (cluster - 1)) != 0)
		return 3;
	data = boot->reserved + (u64)boot->tables * boot->table_sectors + (boot->root_entries * 32ull + 511) / 512;
	if (sectors > context->sectors || data >= sectors)
		return 4;
	if ((sectors - data) / cluster + 2 > boot->table_sectors * 256ull)
		return 5;
	return 0;
}
