/*
 * A partition table of GPT, on a device with sectors of 512 bytes.
 *
 *     crashbpf-cc gpt.c check gpt.bpf --sectors 2048
 *     trace_log.py gpt/no_flush.trace no_flush.log --sectors 2048
 *     crashbpf explore no_flush.log gpt.bpf --sectors 2048 --from 5 --bound 2 --guards
 *
 * The rules are those of the UEFI Specification, version 2.10, section 5.3. There are two copies, each a header and its table of
 * partitions: one header is in sector 1, the other in the last sector. A copy is whole where its header has the signature, its own
 * checksum, the number of its own sector, and the checksum of its table. Who reads takes the first copy if it is whole, else the second.
 *
 * It tests that a copy is whole. Of the one that is taken it tests where the sectors for partitions and the table lie, and that each
 * partition lies in these sectors, ends where it begins or later, and shares no sector with another.
 *
 * With -D AS_SGDISK it also takes for faults what a crash between the two copies leaves, whatever the order of writes: one copy alone
 * that is whole, two that differ, no protective MBR. sgdisk -v tells of these, and sgdisk mends them when it writes.
 *
 * What it doesn't look at: names, types, attributes, and of the MBR all but a partition of type 0xee. It holds tables of at most 1,024
 * entries with at most 256 partitions. Its answers:
 *
 *     1    no copy is whole
 *     2    not taken: another revision or size of entries, more entries or partitions
 *     3    the sectors for partitions, or the table, don't lie where they may
 *     4    a partition lies outside of these sectors, or ends before it begins
 *     5    two partitions share a sector
 *     6    one copy alone is whole (AS_SGDISK)
 *     7    the copies differ (AS_SGDISK)
 *     8    no protective MBR (AS_SGDISK)
 *     255  a loop had too few turns
 *
 * Its code is the number of the entry, from 1 on; of 6 the sector of the header whose copy isn't whole.
 *
 * Compared with sgdisk -v of gdisk 1.0.9, with -D AS_SGDISK. sgdisk finds a fault where it finds a problem, or where it says that a
 * header, a table or the MBR isn't right. That a partition doesn't end where sgdisk would end it is none.
 *
 *     600 mutants of three tables: fields, entries, bits, sectors,      both pass 128, both fail 472
 *     mostly with sums made right
 *     the 115 images of the three logs, bound 2                         both pass 33, both fail 82 (20 of these without AS_SGDISK)
 *     400 mutants of three tables by crashbpf-cc --against, most with   both pass 20, both fail 382, sgdisk alone fails 1: a
 *     sums made right by mend_sums, and the tables as they are          partition of the MBR
 *
 * Without AS_SGDISK it fails on images of logs just where sgdisk says that of each copy the header or the table is wrong, but for 10
 * images. On these the first copy is torn apart and the second one is whole, and sgdisk calls the second one wrong too, since it
 * compares it with the first.
 */
#include "checker.h"

#define ENTRIES 1024
#define PARTITIONS 256

enum answer { NO_COPY = 1, NOT_TAKEN, USABLE, PLACE, SHARED, ONE_COPY, DIFFER, NO_MBR };

#define SIGNATURE 0x5452415020494645	/* EFI PART */
#define HEADER 92			/* the bytes of a header */

struct header {
	u64 signature;
	u32 revision, size, crc, reserved;
	u64 here, other, first, last;	/* sectors: of this header and of the other one, and those for partitions */
	u64 guid[2], table;
	u32 entries, entry_size, table_crc;
};

static struct header taken;
#ifdef AS_SGDISK
static struct header second;
#endif

/* The partitions that were seen. */
static u64 count, first_of[PARTITIONS], last_of[PARTITIONS];

/* Reads the header of sector n; answers 0 if it and its table are whole. */
LOCAL(check) u64 fault_of_copy(struct header *h, u64 n, u64 sectors)
{
	static const u32 no_sum;
	u32 crc;

	if (read_bytes(512 * n, h, HEADER) || h->signature != SIGNATURE || h->size < HEADER || h->size > 512)
		return NO_COPY;
	/* The header's checksum is made with zeros in its own place. */
	crc = crc32_part(0xffffffff, 512 * n, 16);
	crc = crc32_memory_part(crc, &no_sum, sizeof no_sum);
	crc = crc32_part(crc, 512 * n + 20, h->size - 20);
	if ((u32)~crc != h->crc || h->here != n)
		return NO_COPY;
	if (h->revision != 0x10000 || h->entry_size != 128 || h->entries > ENTRIES)
		return NOT_TAKEN;
	if (h->table >= sectors || 512 * h->table + 128 * h->entries > 512 * sectors)
		return NO_COPY;
	crc = 0xffffffff;
	for (u64 i = 0; i < h->entries; i++) {
		TURN(3 * ENTRIES, return TURNS_SPENT);
		crc = crc32_part(crc, 512 * h->table + 128 * i, 128);
	}
	return (u32)~crc == h->table_crc ? 0 : NO_COPY;
}

/* Whether the sectors for partitions lie between the headers, and the table outside of both. */
INLINED u64 look_at_places(u64 sectors)
{
	u64 end = taken.table + (128 * taken.entries + 511) / 512;

	if (taken.first < 2 || taken.first > taken.last || taken.last >= sectors - 1 || taken.table < 2 || end > sectors - 1)
		return USABLE;
	return taken.table <= taken.last && end > taken.first ? USABLE : 0;
}

/* Whether one of the partitions that were seen has some of these sectors. */
LOCAL(check) u64 fault_of_sharing(u64 first, u64 last)
{
	for (u64 i = 0; i < count; i++) {
		TURN(PARTITIONS * PARTITIONS / 2, return TURNS_SPENT);
		if (first <= last_of[i] && first_of[i] <= last)
			return SHARED;
	}
	return 0;
}

/* The partitions in the table. */
INLINED u64 look_at_partitions(void)
{
	for (u64 i = 0; i < taken.entries; i++) {
		u64 at = 512 * taken.table + 128 * i, first = u64_at(at + 32), last = u64_at(at + 40), fault;

		TURN(ENTRIES, return TURNS_SPENT);
		if (!u64_at(at) && !u64_at(at + 8))	/* no type: not in use */
			continue;
		if (count == PARTITIONS)
			return NOT_TAKEN;
		fault = first < taken.first || last > taken.last || first > last ? PLACE : fault_of_sharing(first, last);
		if (fault) {
			report(i + 1);
			return fault;
		}
		first_of[count] = first;
		last_of[count++] = last;
	}
	return 0;
}

#ifdef AS_SGDISK
/* Two copies that are whole, and the protective MBR. */
INLINED u64 look_at_both(u64 first_fault, u64 sectors)
{
	u64 protected = 0;

	if (first_fault || fault_of_copy(&second, sectors - 1, sectors)) {
		report(first_fault ? 1 : sectors - 1);
		return ONE_COPY;
	}
	if (taken.other != second.here || second.other != taken.here || taken.first != second.first || taken.last != second.last
	    || taken.guid[0] != second.guid[0] || taken.guid[1] != second.guid[1] || taken.entries != second.entries
	    || taken.table_crc != second.table_crc)
		return DIFFER;
	for (u64 i = 0; i < 4; i++) {
		TURN(4, return TURNS_SPENT);
		protected |= u8_at(446 + 16 * i + 4) == 0xee;
	}
	return protected && u16_at(510) == 0xaa55 ? 0 : NO_MBR;
}
#endif

u64 check(const struct context *context)
{
	u64 sectors = context->sectors, first_fault, fault;

	first_fault = fault_of_copy(&taken, 1, sectors);
	if (first_fault && fault_of_copy(&taken, sectors - 1, sectors))
		return first_fault;
	fault = look_at_places(sectors);
	if (!fault)
		fault = look_at_partitions();
#ifdef AS_SGDISK
	if (!fault)
		fault = look_at_both(first_fault, sectors);
#endif
	return fault;
}

#ifdef CHECKER_NATIVE
/* Gives both copies the sums that a writer would give them: of the table, then of the header. */
void mend_sums(u8 *image, u64 bytes)
{
	for (u64 at = 512; at + 512 <= bytes; at += at == 512 && bytes > 1024 ? bytes - 1024 : bytes) {
		u64 table = u64_at(at + 72), entries = u32_at(at + 80), entry = u32_at(at + 84), size = u32_at(at + 12);
		u32 sum;

		if (table < bytes / 512 && entries * entry <= bytes - 512 * table) {
			sum = ~crc32_memory(0xffffffff, image + 512 * table, entries * entry);
			memcpy(image + at + 88, &sum, sizeof sum);
		}
		if (size >= HEADER && size <= 512) {
			memset(image + at + 16, 0, sizeof sum);
			sum = ~crc32_memory(0xffffffff, image + at, size);
			memcpy(image + at + 16, &sum, sizeof sum);
		}
	}
}
#endif
