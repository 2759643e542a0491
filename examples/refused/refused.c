/*
 * Pieces of C as people write them first, each with the number by which it is refused,
 * and its cure after it. What each is about stands in docs/CHECKERS.md, 'Refusals'.
 *
 *     commands/cc/crashbpf-cc examples/refused/refused.c NAME NAME.bpf --turns 0
 *
 * NAME.bpf beside this file is what clang 14.0.6 made of the function NAME.
 */
#include "checker.h"

/* 40: the compiler was told that turns are never spent, so nothing stands where that leads. */
u64 nowhere(const struct context *context)
{
	for (u64 i = 0;; i++) {
		TURN(64, __builtin_unreachable());
		if (zero(i) != 1)
			return i;
	}
}

u64 nowhere_cured(const struct context *context)
{
	for (u64 i = 0;; i++) {
		TURN(64, return TURNS_SPENT);
		if (zero(i) != 1)
			return i;
	}
}

/* 41: the last call never returns, as the compiler was told, and nothing stands after it. */
u64 no_end(const struct context *context)
{
	report(context->marks);
	__builtin_unreachable();
}

u64 no_end_cured(const struct context *context)
{
	report(context->marks);
	return 1;
}

/* 42: a loop that nothing bounds. */
u64 plain_loop(const struct context *context)
{
	u64 sum = 0;

	for (u64 i = 0; i < 508; i++)
		sum += u8_at(i);
	return sum == u32_at(508) ? 0 : 1;
}

u64 plain_loop_cured(const struct context *context)
{
	u64 sum = 0;

	for (u64 i = 0; i < 508; i++) {
		TURN(508, return TURNS_SPENT);
		sum += u8_at(i);
	}
	return sum == u32_at(508) ? 0 : 1;
}

/* 42: a way through the body that doesn't pass the turn. */
u64 late_turn(const struct context *context)
{
	for (u64 block = u32_at(8); block != 0; block = u32_at(512 * block + 4)) {
		if (zero(block))
			continue;
		TURN(64, return TURNS_SPENT);
		if (u32_at(512 * block) != 0x45455246)
			return 1;
	}
	return 0;
}

u64 late_turn_cured(const struct context *context)
{
	for (u64 block = u32_at(8); block != 0; block = u32_at(512 * block + 4)) {
		TURN(64, return TURNS_SPENT);
		if (zero(block))
			continue;
		if (u32_at(512 * block) != 0x45455246)
			return 1;
	}
	return 0;
}

/* 43: helper 3 as a function; its limit and the test of its answer have to stand beside it. */
u64 again_called(const struct context *context)
{
	u64 (*const again)(u64) = (u64 (*)(u64))3;
	u64 i = 0;

	while (again(context->sectors) && zero(i) == 1)
		i++;
	return i;
}

u64 again_called_cured(const struct context *context)
{
	u64 i = 0;

	while (zero(i) == 1) {
		TURN(16384, return TURNS_SPENT);
		i++;
	}
	return i;
}

/*
 * 45: each turn counts with the longest path of the whole program. A million short turns stand
 * beside a long stretch without a loop, so each of them counts as much as that stretch.
 */
#define SUM(at) crc = crc32c(crc, u8_at(at))
#define SUM_OF_8(at) SUM(at), SUM(at + 1), SUM(at + 2), SUM(at + 3), SUM(at + 4), SUM(at + 5), SUM(at + 6), SUM(at + 7)

u64 long_path(const struct context *context)
{
	u32 crc = CRC32C_START;
	u64 sum = 0;

	SUM_OF_8(0), SUM_OF_8(8), SUM_OF_8(16);
	for (u64 at = 512; at < 512 * context->sectors; at++) {
		TURN(1048576, return TURNS_SPENT);
		sum += u8_at(at);
	}
	return ~crc == sum ? 0 : 1;
}

/* The stretch is a loop too: a few turns more, and a much shorter path. */
u64 long_path_cured(const struct context *context)
{
	u32 crc = CRC32C_START;
	u64 sum = 0;

	for (u64 at = 0; at < 24; at++) {
		TURN(24, return TURNS_SPENT);
		SUM(at);
	}
	for (u64 at = 512; at < 512 * context->sectors; at++) {
		TURN(1048576, return TURNS_SPENT);
		sum += u8_at(at);
	}
	return ~crc == sum ? 0 : 1;
}

/* 50: a checker is given the context and nothing else. */
u64 second_parameter(const struct context *context, u64 number)
{
	return number < context->sectors ? 0 : 1;
}

u64 second_parameter_cured(const struct context *context)
{
	return context->marks < context->sectors ? 0 : 1;
}

struct record {
	u64 number, sum;
};

/* 50: a pointer to one of two locals; which one isn't known, so it is no pointer any more. */
u64 one_of_two(const struct context *context)
{
	struct record one, other, *newest;

	if (copy(0, &one, sizeof one) || copy(512, &other, sizeof other))
		return 1;
	newest = one.number > other.number ? &one : &other;
	return newest->sum == mix(2) ? 0 : 2;
}

u64 one_of_two_cured(const struct context *context)
{
	u64 newest = u64_at(0) > u64_at(512) ? 0 : 512;

	return u64_at(newest + 8) == mix(2) ? 0 : 2;
}

/* 50: of two structs the compiler chooses the address, and copies from there. */
u64 one_struct(const struct context *context)
{
	struct record one, other, newest;

	if (copy(0, &one, sizeof one) || copy(512, &other, sizeof other))
		return 1;
	newest = one.number > other.number ? one : other;
	return newest.sum == mix(2) ? 0 : 2;
}

/* The position is chosen, and then the struct is read from there. */
u64 one_struct_cured(const struct context *context)
{
	struct record newest;

	if (copy(u64_at(0) > u64_at(512) ? 0 : 512, &newest, sizeof newest))
		return 1;
	return newest.sum == mix(2) ? 0 : 2;
}

/* 50: an address isn't an answer; where it meets the other answer it is neither. */
u64 answered_address(const struct context *context)
{
	const u64 *words = SECTOR(0, return 1);

	return (u64)(words + 1);
}

u64 answered_address_cured(const struct context *context)
{
	const u64 *words = SECTOR(0, return 1);

	return words[1];
}

/* 51: only eight of sixteen bytes are written. */
u64 short_copy(const struct context *context)
{
	struct record record;

	if (copy(0, &record, sizeof record.number))
		return 1;
	return record.number == record.sum ? 0 : 2;
}

u64 short_copy_cured(const struct context *context)
{
	struct record record;

	if (copy(0, &record, sizeof record))
		return 1;
	return record.number == record.sum ? 0 : 2;
}

/* 52: the address may be 0. That the device has a sector 0 isn't used. */
u64 no_null_test(const struct context *context)
{
	const u64 *words = sector(0);

	return words[0] == 1 ? 0 : 1;
}

u64 no_null_test_cured(const struct context *context)
{
	const u64 *words = SECTOR(0, return 2);

	return words[0] == 1 ? 0 : 1;
}

struct block {
	u64 header[4], entries[60];
};

/*
 * 52: the compiler tests i at the end of the body. At the loop's head its range is rounded up to 0
 * to 63, and no test stands between there and the read.
 */
u64 turned_test(const struct context *context)
{
	const struct block *block = SECTOR(0, return 1);
	u64 sum = 0;

	for (u64 i = 0; i < 60; i++) {
		TURN(60, return TURNS_SPENT);
		sum ^= block->entries[i];
	}
	return sum == block->header[1] ? 0 : 2;
}

/* TURN_BELOW tests i; KEEP has the compiler find block->entries anew in each turn, and not in front of the loop. */
u64 turned_test_cured(const struct context *context)
{
	const struct block *block = SECTOR(0, return 1);
	u64 sum = 0;

	for (u64 i = 0; i < 60; i++) {
		TURN_BELOW(i, 60, return TURNS_SPENT);
		KEEP(block);
		sum ^= block->entries[i];
	}
	return sum == block->header[1] ? 0 : 2;
}

/* 52: the address of an element in a loop inside: at its head the verifier rounds up where that may point, past the sector. */
struct element {
	u64 sum;
	u64 words[3];
};

u64 inner_loop(const struct context *context)
{
	const struct element *elements = SECTOR(1, return 1);

	for (u64 i = 0; i < 16; i++) {
		TURN(16, return TURNS_SPENT);
		const struct element *element = ELEMENT(elements, i, 16, return 2);
		u64 sum = 0;
		for (u64 j = 0; j < 3; j++) {
			TURN(48, return TURNS_SPENT);
			sum += *ELEMENT(element->words, j, 3, return 2);
		}
		if (sum != element->sum)
			return 3;
	}
	return 0;
}

u64 inner_loop_cured(const struct context *context)
{
	const u64 *words = SECTOR(1, return 1);

	for (u64 i = 0; i < 16; i++) {
		TURN(16, return TURNS_SPENT);
		u64 sum = 0;
		for (u64 j = 1; j < 4; j++) {
			TURN(48, return TURNS_SPENT);
			sum += *ELEMENT(words, 4 * i + j, 64, return 2);
		}
		if (sum != *ELEMENT(words, 4 * i, 64, return 2))
			return 3;
	}
	return 0;
}

/* 53: the image can't be written. */
u64 written_sector(const struct context *context)
{
	u64 *words = (u64 *)SECTOR(0, return 1);
	u64 sum = words[63];

	words[63] = 0;
	return mix(0) == sum ? 0 : 2;
}

/* Without the write. */
u64 written_sector_cured(const struct context *context)
{
	return mix(0) - u64_at(504) == u64_at(504) ? 0 : 2;
}

/* Accepted since signed tests tell the verifier what an int may be; it was 54. */
u64 int_index(const struct context *context)
{
	const u32 *table = SECTOR(1, return 1);
	int i = u32_at(4);

	if (i < 0 || i >= 128)
		return 2;
	return table[i] != 0 ? 0 : 3;
}

u64 int_index_cured(const struct context *context)
{
	const u32 *table = SECTOR(1, return 1);
	int i = u32_at(4);

	return *ELEMENT(table, i, 128, return 2) != 0 ? 0 : 3;
}

/* 54: a u32 is tested in a copy without its upper half, and the one that is used isn't known. */
u64 short_index(const struct context *context)
{
	const u8 *bytes = SECTOR(1, return 1);
	u64 sum = 0;

	for (u32 i = u32_at(4); i < 500; i++) {
		TURN(500, return TURNS_SPENT);
		sum += bytes[i];
	}
	return sum == u64_at(8) ? 0 : 2;
}

u64 short_index_cured(const struct context *context)
{
	const u8 *bytes = SECTOR(1, return 1);
	u64 sum = 0;

	for (u64 i = u32_at(4); i < 500; i++) {
		TURN_BELOW(i, 500, return TURNS_SPENT);
		sum += bytes[i];
	}
	return sum == u64_at(8) ? 0 : 2;
}

/* 54: the compiler makes one test of two, of block - 4096, which says nothing of block. */
u64 merged_tests(const struct context *context)
{
	const u16 *table = SECTOR(1, return 1);
	u64 block = u16_at(8);

	if (block < 4096 || block >= 4352)
		return 2;
	return table[block - 4096] != 0 ? 0 : 3;
}

/* ELEMENT makes a test of its own. */
u64 merged_tests_cured(const struct context *context)
{
	const u16 *table = SECTOR(1, return 1);
	u64 block = u16_at(8);

	return *ELEMENT(table, block - 4096, 256, return 2) != 0 ? 0 : 3;
}

/* 54: no index into an array on the stack. */
u64 counters(const struct context *context)
{
	u64 counts[4] = { 0, 0, 0, 0 };

	for (u64 i = 0; i < 512; i++) {
		TURN(512, return TURNS_SPENT);
		counts[u8_at(512 + i) & 3]++;
	}
	return counts[1] == u64_at(0) ? 0 : 1;
}

/* The counters in one number, 16 bits each. */
u64 counters_cured(const struct context *context)
{
	u64 counts = 0;

	for (u64 i = 0; i < 512; i++) {
		TURN(512, return TURNS_SPENT);
		counts += 1ull << 16 * (u8_at(512 + i) & 3);
	}
	return (counts >> 16 & 0xffff) == u64_at(0) ? 0 : 1;
}

/* 55: two pointers can't be compared. */
u64 pointer_loop(const struct context *context)
{
	const u64 *word = SECTOR(0, return 1), *end = word + (u8_at(512) & 63);
	u64 sum = 0;

	while (word < end) {
		TURN(64, return TURNS_SPENT);
		sum ^= *word++;
	}
	return sum == 0 ? 0 : 2;
}

u64 pointer_loop_cured(const struct context *context)
{
	const u64 *words = SECTOR(0, return 1);
	u64 sum = 0, count = u8_at(512) & 63;

	for (u64 i = 0; i < count; i++) {
		TURN_BELOW(i, 64, return TURNS_SPENT);
		sum ^= words[i];
	}
	return sum == 0 ? 0 : 2;
}

/* 56: a length that isn't a constant. */
u64 long_name(const struct context *context)
{
	char name[16];
	u64 length = u8_at(0) & 15;

	if (copy(1, name, length))
		return 1;
	return name[0] == '/' ? 0 : 2;
}

u64 long_name_cured(const struct context *context)
{
	char name[16];

	if (copy(1, name, sizeof name))
		return 1;
	return name[0] == '/' ? 0 : 2;
}

/* 56: a helper takes the number of a sector and not its address. */
u64 mix_of_address(const struct context *context)
{
	const u64 *words = SECTOR(1, return 1);

	return mix((u64)words) == u64_at(8) ? 0 : 2;
}

u64 mix_of_address_cured(const struct context *context)
{
	return mix(1) == u64_at(8) ? 0 : 2;
}

/* 58: helper 14 of Linux; there are no other helpers here than those of checker.h. */
u64 linux_helper(const struct context *context)
{
	u64 (*const get_current_pid_tgid)(void) = (u64 (*)(void))14;

	return get_current_pid_tgid() == 0 ? 0 : 1;
}
