/*
 * For checkers written in C: the context, the helpers by their numbers, reads at
 * a byte position, and loops that the shape rules know. See docs/CHECKERS.md,
 * and docs/MACHINE.md for the rules of the helpers.
 *
 *     crashbpf-cc checker.c check checker.bpf --sectors 4
 *
 * (commands/cc/crashbpf-cc) compiles the function `check` of checker.c. By hand,
 * where it is the only function of its file:
 *
 *     clang -O2 -target bpfel -mcpu=v2 -c checker.c -o checker.o
 *     llvm-objcopy -O binary --only-section=.text checker.o checker.bpf
 *
 * The instructions of that one function reach the program, and of those that are
 * LOCAL to it; what else it calls is inlined. Variables outside of functions, static
 * ones, tables and strings lie in the program's memory, 65536 bytes, which it has with
 * --guards alone. It is for clang 14 or newer, and for gcc 12 or newer as it is built
 * for BPF.
 *
 * native/checker.h has the same for a program that judges a file, for a debugger.
 */
#ifndef CHECKER_H
#define CHECKER_H

#include <stddef.h>

typedef unsigned char u8;
typedef unsigned short u16;
typedef unsigned int u32;
typedef unsigned long long u64;

/* In front of each function that a checker calls: its body goes to where it is called. */
#define INLINED static inline __attribute__((always_inline))

/* native/checker.h defines this, and what stands below for programs alone. */
#ifndef CHECKER_NATIVE

/*
 * In front of a function that the function `checker` of the file calls and that is
 * to stand in the program once: LOCAL(check) u64 sum_of(u64 n) { .. }. It takes up
 * to five numbers and answers one. Without guards no pointer passes, in neither
 * direction; with them it may read by one, and write to what is static. At most three
 * calls deep, and none within itself.
 */
#define LOCAL(checker) static __attribute__((noinline, section(".text." #checker)))

/* A helper is called by its number, which the two compilers write in different ways. */
#ifdef __clang__
#define HELPER_(number, answer, name, ...) static answer (*const name)(__VA_ARGS__) = (answer (*)(__VA_ARGS__))number
#else
#define HELPER_(number, answer, name, ...) answer name(__VA_ARGS__) __attribute__((kernel_helper(number)))
#endif

#endif

/* Where a program starts, r1 points to this. It is read-only. */
struct context {
	u64 sectors;	/* of the device */
	u64 epoch;	/* flushes before the cut */
	u64 marks;	/* marks before the cut */
	u64 unused;	/* 0 */
};

/* The address of sector n, 512 bytes that can be read, or 0 past the device. */
HELPER_(1, const void *, sector, u64 n);

/*
 * Copies `length` bytes (a constant, 1 to 512) of the device from byte position
 * `at` to an array on the stack, or with guards to a static one. Answers 1 if any
 * lay past the device, else 0.
 */
HELPER_(2, u64, copy, u64 at, void *to, u64 length);

/* Keeps a code for the report. Answers 1, and keeps nothing, after sixteen. */
HELPER_(4, u64, report, u64 code);

/* 1 if sector n is all zeros, else 0; 2 past the device. */
HELPER_(5, u64, zero, u64 n);

/* The mix of sector n, a number made of all its words, each of which counts by its place
 * (docs/MACHINE.md); 0 past the device. Different sectors may have the same one. */
HELPER_(6, u64, mix, u64 n);

/* 1 if the sectors a and b are equal, else 0; 2 if either is past the device. */
HELPER_(7, u64, same, u64 a, u64 b);

/*
 * With --guards alone: the checksum of `length` bytes of the device, at most the first 4096,
 * from byte position `at` on, or of memory or the stack. `crc` and the answer are the
 * register, which isn't inverted: begin with CRC32C_START, go on with the answer, invert at
 * the end. The forms below take any length.
 */
HELPER_(8, u64, crc32c_part, u64 crc, u64 at, u64 length);
HELPER_(9, u64, crc32_part, u64 crc, u64 at, u64 length);
HELPER_(10, u64, crc32c_memory_part, u64 crc, const void *from, u64 length);
HELPER_(11, u64, crc32_memory_part, u64 crc, const void *from, u64 length);

#ifndef CHECKER_NATIVE

/* The few instructions that macros below write, in the syntax of each compiler's assembler. */
#ifdef __clang__
#define AGAIN_(end) "r1 = %0\n\tcall 3\n\tif r0 == 0 goto %l[" #end "]"
#define ABOVE_ "if %0 > %1 goto %l[above_]"
#define SECTOR_ "r1 = %1\n\tcall 1\n\tif r0 == 0 goto %l[past_]\n\t%0 = r0"
#define MOVE_ "%0 += %1"
#else
#define AGAIN_(end) "mov %%r1,%0\n\tcall 3\n\tjeq %%r0,0,%l[" #end "]"
#define ABOVE_ "jgt %0,%1,%l[above_]"
#define SECTOR_ "mov %%r1,%1\n\tcall 1\n\tjeq %%r0,0,%l[past_]\n\tmov %0,%%r0"
#define MOVE_ "add %0,%1"

/*
 * After a test as n == 16 gcc may take the register of n for 16, which the verifier doesn't. So a constant length of `copy`
 * is loaded in front of each call.
 */
#define LOADED_(n)									\
	({										\
		u64 loaded_ = (n);							\
		if (__builtin_constant_p(loaded_) && loaded_ <= 512)			\
			__asm__ volatile("mov %0,%1" : "=r"(loaded_) : "i"(loaded_));	\
		loaded_;								\
	})
#define copy(at, to, length) copy(at, to, LOADED_(length))
#endif

/*
 * Goes to the label `end` when this place has been passed `times` times in the
 * run, times being a constant from 1 to 1048576. It is helper 3, `again`, in the
 * three instructions that the shape rules ask for; written as a plain call, the
 * compiler would move them apart. A loop is
 *
 *     for (;;) {
 *         AT_MOST(8, end);
 *         ...
 *     }
 *     end: ...
 *
 * The count is that of the whole run and doesn't start anew: an inner loop that
 * is to make m turns in each of n turns of the outer one needs n * (m + 1).
 */
#define AT_MOST(times, end)			\
	__asm__ goto(AGAIN_(end)		\
		 :				\
		 : "i"(times)			\
		 : "r0", "r1", "r2", "r3", "r4", "r5", "memory" \
		 : end)

#endif

/*
 * AT_MOST with a statement in place of the label: TURN(8, return TURNS_SPENT).
 * Like each `otherwise` below, the statement has to leave the place: it is a
 * return, goto, break or continue. Let it answer an error. Where turns run short
 * and the loop ends as if it had seen all, errors are overlooked.
 */
#define TURN(times, otherwise)			\
	({					\
		__label__ spent_;		\
		AT_MOST(times, spent_);		\
		if (0) {			\
		spent_:				\
			otherwise;		\
		}				\
	})

/* An answer for a loop whose turns are spent. */
#define TURNS_SPENT 255

#ifndef CHECKER_NATIVE

/*
 * Goes on where the variable i, a u64, is below the constant n, and does
 * `otherwise` elsewhere. From here on the verifier knows it, and the compiler
 * doesn't: it neither leaves the test out nor makes another test of it.
 */
#define BELOW(i, n, otherwise)						\
	({								\
		__label__ above_;					\
		_Static_assert(sizeof(i) == 8 && (__typeof__(i))-1 > 0,	\
			       "the index of BELOW has to be a u64");	\
		__asm__ goto(ABOVE_					\
			 : "+r"(i)					\
			 : "i"((n) - 1)					\
			 :						\
			 : above_);					\
		if (0) {						\
		above_:							\
			otherwise;					\
		}							\
	})

#endif

/* A turn of a loop that goes by the index i, a u64, over n elements; i is BELOW n from here on. */
#define TURN_BELOW(i, n, otherwise)	\
	({				\
		TURN(n, otherwise);	\
		BELOW(i, n, otherwise);	\
	})

#ifndef CHECKER_NATIVE

/*
 * The address of sector n, or `otherwise` past the device:
 *
 *     const struct slot *slot = SECTOR(1, return 3);
 *
 * The null test stands right after the call, which the verifier asks for; the
 * compiler may move the test of a plain sector(n) after a copy of its answer.
 */
#define SECTOR(n, otherwise)					\
	({							\
		__label__ past_;				\
		const void *sector_;				\
		__asm__ goto(SECTOR_				\
			 : "=r"(sector_)			\
			 : "r"((u64)(n))			\
			 : "r0", "r1", "r2", "r3", "r4", "r5"	\
			 : past_);				\
		if (0) {					\
		past_:						\
			otherwise;				\
		}						\
		sector_;					\
	})

/*
 * From here on the compiler knows nothing of the value of the variable x, a number or
 * a pointer: it can't turn a test of it into another one, merge two, or make its way
 * from x in front of a loop whose body has KEEP(x).
 */
#define KEEP(x) __asm__ volatile("" : "+r"(x))

/*
 * The address of element i of the n elements at p, which points into a sector; or
 * `otherwise` where i isn't below the constant n:
 *
 *     key = *ELEMENT(block->keys, i, 60, return 2);
 *
 * i is any whole number, a negative one too. The number is added to the pointer, never
 * the pointer to the number, as the compiler may do with p[i].
 */
#define ELEMENT(p, i, n, otherwise)				\
	({							\
		__typeof__(&(p)[0]) element_ = (p);		\
		u64 index_ = (i);				\
		BELOW(index_, n, otherwise);			\
		index_ *= sizeof *element_;			\
		__asm__(MOVE_ : "+r"(element_) : "r"(index_));	\
		element_;					\
	})

#endif

/* gcc for BPF calls a library for these, clang writes them out. */
#if !defined(CHECKER_NATIVE) && !defined(__clang__)
INLINED u32 swapped_(u32 x)
{
	return x << 24 | (x & 0xff00) << 8 | (x >> 8 & 0xff00) | x >> 24;
}

INLINED u64 swapped_word_(u64 x)
{
	return (u64)swapped_(x) << 32 | swapped_(x >> 32);
}

INLINED int popcount_(u64 x)
{
	x -= x >> 1 & 0x5555555555555555;
	x = (x & 0x3333333333333333) + (x >> 2 & 0x3333333333333333);
	x = (x + (x >> 4)) & 0x0f0f0f0f0f0f0f0f;
	return x * 0x0101010101010101 >> 56;
}

#define __builtin_bswap32(x) swapped_(x)
#define __builtin_bswap64(x) swapped_word_(x)
#define __builtin_popcountll(x) popcount_(x)
#define __builtin_popcountl(x) popcount_(x)
#define __builtin_popcount(x) popcount_((u32)(x))
#define __builtin_parityll(x) (popcount_(x) & 1)
#define __builtin_parityl(x) (popcount_(x) & 1)
#define __builtin_parity(x) (popcount_((u32)(x)) & 1)
#endif

/* clang 14 breaks off on these, gcc calls a library. Of 0 the first two are 64, or 32. */
#ifndef CHECKER_NATIVE
INLINED int low_zeros_(u64 x)
{
	return __builtin_popcountll((x & -x) - 1);
}

INLINED int high_zeros_(u64 x)
{
	x |= x >> 1;
	x |= x >> 2;
	x |= x >> 4;
	x |= x >> 8;
	x |= x >> 16;
	x |= x >> 32;
	return 64 - __builtin_popcountll(x);
}

INLINED int first_one_(u64 x)
{
	return x ? 1 + low_zeros_(x) : 0;
}

#define __builtin_ctzll(x) low_zeros_(x)
#define __builtin_ctzl(x) low_zeros_(x)
#define __builtin_ctz(x) low_zeros_((u32)(x) | 1ull << 32)
#define __builtin_clzll(x) high_zeros_(x)
#define __builtin_clzl(x) high_zeros_(x)
#define __builtin_clz(x) (high_zeros_((u32)(x)) - 32)
#define __builtin_ffsll(x) first_one_(x)
#define __builtin_ffsl(x) first_one_(x)
#define __builtin_ffs(x) first_one_((u32)(x))
#endif

/*
 * The number that stands at byte position `at` of the device (sector 512 bytes
 * each), little-endian, or big-endian by the forms that end in _be. Bytes past the
 * device read as 0. The position may be any number, aligned or not: nothing has to
 * be tested before.
 */
INLINED u8 u8_at(u64 at)
{
	u8 x;

	copy(at, &x, sizeof x);
	return x;
}

INLINED u16 u16_at(u64 at)
{
	u16 x;

	copy(at, &x, sizeof x);
	return x;
}

INLINED u32 u32_at(u64 at)
{
	u32 x;

	copy(at, &x, sizeof x);
	return x;
}

INLINED u64 u64_at(u64 at)
{
	u64 x;

	copy(at, &x, sizeof x);
	return x;
}

INLINED u16 u16_at_be(u64 at)
{
	return __builtin_bswap16(u16_at(at));
}

INLINED u32 u32_at_be(u64 at)
{
	return __builtin_bswap32(u32_at(at));
}

INLINED u64 u64_at_be(u64 at)
{
	return __builtin_bswap64(u64_at(at));
}

#ifdef __clang__
#define UNROLLED_ _Pragma("clang loop unroll(full)")
#else
#define UNROLLED_ _Pragma("GCC unroll 8")
#endif

/*
 * The CRC-32C of one byte more, bit by bit, some fifty steps. A sum over bytes
 * begins with CRC32C_START and ends inverted:
 *
 *     u32 crc = CRC32C_START;
 *     for (u64 i = 0; i < 508; i++) {
 *         TURN(508, return TURNS_SPENT);
 *         crc = crc32c(crc, u8_at(i));
 *     }
 *     if (~crc != u32_at(508)) ...
 */
#define CRC32C_START 0xffffffff

INLINED u32 crc32c(u64 crc, u8 byte)
{
	crc ^= byte;
	UNROLLED_
	for (u64 bit = 0; bit < 8; bit++)
		crc = crc >> 1 ^ (0x82f63b78 & -(crc & 1));
	return crc;
}

/*
 * The same of any number of bytes, by the helpers: a sector takes some 0.3 us in place of 35.
 * crc32c_at and crc32_at are of the device, the others of memory. All have the register, as above:
 *
 *     if ((u32)~crc32c_at(CRC32C_START, 0, 508) != u32_at(508)) ...
 */
#define CRC_OVER_(part, crc, from, length)			\
	({							\
		u64 crc_ = (crc), length_ = (length);		\
		__typeof__((from) + 0) from_ = (from);		\
		for (; length_ > 4096; length_ -= 4096) {	\
			crc_ = part(crc_, from_, 4096);		\
			from_ += 4096;				\
		}						\
		if (length_ > 0)				\
			crc_ = part(crc_, from_, length_);	\
		crc_;						\
	})

INLINED u32 crc32c_at(u32 crc, u64 at, u64 length)
{
	return CRC_OVER_(crc32c_part, crc, at, length);
}

INLINED u32 crc32_at(u32 crc, u64 at, u64 length)
{
	return CRC_OVER_(crc32_part, crc, at, length);
}

INLINED u32 crc32c_memory(u32 crc, const void *from, u64 length)
{
	return CRC_OVER_(crc32c_memory_part, crc, (const u8 *)from, length);
}

INLINED u32 crc32_memory(u32 crc, const void *from, u64 length)
{
	return CRC_OVER_(crc32_memory_part, crc, (const u8 *)from, length);
}

/*
 * Bytes of the device from byte position `at` on, as many as you like, to a variable outside
 * of functions. Answers 1 if any lay past the device, which are 0, else 0. Of a length that is
 * no constant the last bytes go by halves: 256, 128, .. 1.
 */
#define READ_PART_(n)					\
	if (length & (n)) {				\
		past |= copy(at, place, n);		\
		at += (n);				\
		place += (n);				\
	}

INLINED u64 read_bytes(u64 at, void *to, u64 length)
{
	u8 *place = to;
	u64 past = 0;

	for (; length >= 512; length -= 512) {
		past |= copy(at, place, 512);
		at += 512;
		place += 512;
	}
	READ_PART_(256) READ_PART_(128) READ_PART_(64) READ_PART_(32) READ_PART_(16) READ_PART_(8) READ_PART_(4) READ_PART_(2) READ_PART_(1)
	return past;
}

/* Numbers in memory, little-endian and, by the forms that end in _be, big-endian, aligned or not. */
#define NUMBER_IN_(type, from)							\
	({									\
		struct { type value_; } __attribute__((packed, may_alias)) const *it_ = (const void *)(from);	\
		it_->value_;							\
	})

INLINED u16 u16_in(const void *from)
{
	return NUMBER_IN_(u16, from);
}

INLINED u32 u32_in(const void *from)
{
	return NUMBER_IN_(u32, from);
}

INLINED u64 u64_in(const void *from)
{
	return NUMBER_IN_(u64, from);
}

INLINED u16 u16_in_be(const void *from)
{
	return __builtin_bswap16(u16_in(from));
}

INLINED u32 u32_in_be(const void *from)
{
	return __builtin_bswap32(u32_in(from));
}

INLINED u64 u64_in_be(const void *from)
{
	return __builtin_bswap64(u64_in(from));
}

/* How many of the first `bits` bits of a bitmap are 1; bit 0 is the lowest of its first byte. */
INLINED u64 bits_set(const void *map, u64 bits)
{
	const u8 *byte = map;
	u64 count = 0;

	for (; bits >= 8; bits -= 8)
		count += __builtin_popcount(*byte++);
	if (bits > 0)
		count += __builtin_popcount(*byte & ((1u << bits) - 1));
	return count;
}

/* Whether bit n of a bitmap is 1. */
INLINED int bit_of(const void *map, u64 n)
{
	return ((const u8 *)map)[n / 8] >> n % 8 & 1;
}

/*
 * More sums of memory or of locals, in C: Adler-32 (RFC 1950), which begins with 1; Fletcher's sums of
 * 64 bits over words of 32, as APFS and others keep them, which begin with { 0, 0 }.
 */
INLINED u32 adler32_memory(u32 adler, const void *from, u64 length)
{
	const u8 *byte = from;
	u64 low = adler & 0xffff, high = adler >> 16;

	for (u64 i = 0; i < length; i++) {
		low = (low + byte[i]) % 65521;
		high = (high + low) % 65521;
	}
	return high << 16 | low;
}

struct fletcher_sums {
	u64 low, high;
};

INLINED struct fletcher_sums fletcher64_memory(struct fletcher_sums sums, const void *from, u64 words, u64 modulus)
{
	const u32 *word = from;

	for (u64 i = 0; i < words; i++) {
		sums.low = (sums.low + word[i]) % modulus;
		sums.high = (sums.high + sums.low) % modulus;
	}
	return sums;
}

/* xxHash of 64 bits. */
#define XX1_ 0x9e3779b185ebca87ull
#define XX2_ 0xc2b2ae3d27d4eb4full
#define XX3_ 0x165667b19e3779f9ull
#define XX4_ 0x85ebca77c2b2ae63ull
#define XX5_ 0x27d4eb2f165667c5ull

INLINED u64 rotated_(u64 x, u64 bits)
{
	return x << bits | x >> (64 - bits);
}

INLINED u64 xx_round_(u64 sum, u64 x)
{
	return rotated_(sum + x * XX2_, 31) * XX1_;
}

INLINED u64 xxhash64_memory(u64 seed, const void *from, u64 length)
{
	const u8 *byte = from;
	u64 left = length, hash = seed + XX5_;

	if (left >= 32) {
		u64 a = seed + XX1_ + XX2_, b = seed + XX2_, c = seed, d = seed - XX1_;

		for (; left >= 32; left -= 32) {
			a = xx_round_(a, u64_in(byte));
			b = xx_round_(b, u64_in(byte + 8));
			c = xx_round_(c, u64_in(byte + 16));
			d = xx_round_(d, u64_in(byte + 24));
			byte += 32;
		}
		hash = rotated_(a, 1) + rotated_(b, 7) + rotated_(c, 12) + rotated_(d, 18);
		hash = (hash ^ xx_round_(0, a)) * XX1_ + XX4_;
		hash = (hash ^ xx_round_(0, b)) * XX1_ + XX4_;
		hash = (hash ^ xx_round_(0, c)) * XX1_ + XX4_;
		hash = (hash ^ xx_round_(0, d)) * XX1_ + XX4_;
	}
	hash += length;
	for (; left >= 8; left -= 8) {
		hash = rotated_(hash ^ xx_round_(0, u64_in(byte)), 27) * XX1_ + XX4_;
		byte += 8;
	}
	if (left >= 4) {
		hash = rotated_(hash ^ u32_in(byte) * XX1_, 23) * XX2_ + XX3_;
		byte += 4;
		left -= 4;
	}
	for (; left > 0; left--)
		hash = rotated_(hash ^ *byte++ * XX5_, 11) * XX1_;
	hash = (hash ^ hash >> 33) * XX2_;
	hash = (hash ^ hash >> 29) * XX3_;
	return hash ^ hash >> 32;
}

#ifndef CHECKER_NATIVE

/*
 * What a checker has of the library, inlined. With a constant length of at most 512
 * memcmp, memcpy and memset are written out, by words and then by bytes; with another
 * they are loops, whose turns are bounded as those of any loop. Texts to compare with
 * are constants: memcmp(p, "EFI PART", 8).
 */
typedef u64 __attribute__((may_alias)) word_;

#define EIGHT_(step, i) \
	step(i) step(i + 1) step(i + 2) step(i + 3) step(i + 4) step(i + 5) step(i + 6) step(i + 7)
#define WORDS_(step)									\
	EIGHT_(step, 0) EIGHT_(step, 8) EIGHT_(step, 16) EIGHT_(step, 24)		\
	EIGHT_(step, 32) EIGHT_(step, 40) EIGHT_(step, 48) EIGHT_(step, 56)
#define IF_WORD_(i) if (8 * (i) + 8 <= length)
#define IF_BYTE_(i) if (tail + (i) < length)

INLINED int memcmp_whole_(const void *a, const void *b, size_t length)
{
	const u8 *x = a, *y = b;
	const size_t tail = length / 8 * 8;

#define COMPARE_WORD_(i)								\
	IF_WORD_(i) if (((const word_ *)x)[i] != ((const word_ *)y)[i])			\
		return __builtin_bswap64(((const word_ *)x)[i])				\
			< __builtin_bswap64(((const word_ *)y)[i]) ? -1 : 1;
#define COMPARE_BYTE_(i) IF_BYTE_(i) if (x[tail + (i)] != y[tail + (i)]) return x[tail + (i)] - y[tail + (i)];
	WORDS_(COMPARE_WORD_)
	EIGHT_(COMPARE_BYTE_, 0)
	return 0;
}

INLINED int memcmp_loop_(const void *a, const void *b, size_t length)
{
	for (size_t i = 0; i < length; i++)
		if (((const u8 *)a)[i] != ((const u8 *)b)[i])
			return ((const u8 *)a)[i] - ((const u8 *)b)[i];
	return 0;
}

INLINED void *memcpy_whole_(void *to, const void *from, size_t length)
{
	u8 *x = to;
	const u8 *y = from;
	const size_t tail = length / 8 * 8;

#define COPY_WORD_(i) IF_WORD_(i) ((word_ *)x)[i] = ((const word_ *)y)[i];
#define COPY_BYTE_(i) IF_BYTE_(i) x[tail + (i)] = y[tail + (i)];
	WORDS_(COPY_WORD_)
	EIGHT_(COPY_BYTE_, 0)
	return to;
}

INLINED void *memcpy_loop_(void *to, const void *from, size_t length)
{
	for (size_t i = 0; i < length; i++)
		((u8 *)to)[i] = ((const u8 *)from)[i];
	return to;
}

INLINED void *memset_whole_(void *to, int byte, size_t length)
{
	u8 *x = to;
	const size_t tail = length / 8 * 8;

#define SET_WORD_(i) IF_WORD_(i) ((word_ *)x)[i] = 0x0101010101010101 * (u8)byte;
#define SET_BYTE_(i) IF_BYTE_(i) x[tail + (i)] = byte;
	WORDS_(SET_WORD_)
	EIGHT_(SET_BYTE_, 0)
	return to;
}

INLINED void *memset_loop_(void *to, int byte, size_t length)
{
	for (size_t i = 0; i < length; i++)
		((u8 *)to)[i] = byte;
	return to;
}

#define EITHER_(name, a, b, length)						\
	(__builtin_constant_p(length) && (length) <= 512			\
	 ? name##_whole_(a, b, length) : name##_loop_(a, b, length))
#define memcmp(a, b, length) EITHER_(memcmp, a, b, length)
#define memcpy(to, from, length) EITHER_(memcpy, to, from, length)
#define memset(to, byte, length) EITHER_(memset, to, byte, length)

INLINED void *memmove_(void *to, const void *from, size_t length)
{
	u8 *x = to;
	const u8 *y = from;

	if (x <= y)
		for (size_t i = 0; i < length; i++)
			x[i] = y[i];
	else
		for (size_t i = length; i > 0; i--)
			x[i - 1] = y[i - 1];
	return to;
}

INLINED size_t strlen_(const char *text)
{
	size_t length = 0;

	while (text[length])
		length++;
	return length;
}

INLINED int strncmp_(const char *a, const char *b, size_t most)
{
	for (size_t i = 0; i < most; i++) {
		if (a[i] != b[i])
			return (u8)a[i] - (u8)b[i];
		if (!a[i])
			break;
	}
	return 0;
}

INLINED int strcmp_(const char *a, const char *b)
{
	size_t i = 0;

	while (a[i] && a[i] == b[i])
		i++;
	return (u8)a[i] - (u8)b[i];
}

INLINED size_t strnlen_(const char *text, size_t most)
{
	size_t length = 0;

	while (length < most && text[length])
		length++;
	return length;
}

INLINED void *memchr_(const void *from, int byte, size_t length)
{
	for (size_t i = 0; i < length; i++)
		if (((const u8 *)from)[i] == (u8)byte)
			return (u8 *)from + i;
	return 0;
}

INLINED char *strchr_(const char *text, int byte)
{
	for (; *text != (char)byte; text++)
		if (!*text)
			return 0;
	return (char *)text;
}

#define memmove(to, from, length) memmove_(to, from, length)
#define memchr(from, byte, length) memchr_(from, byte, length)
#define strlen(text) strlen_(text)
#define strnlen(text, most) strnlen_(text, most)
#define strcmp(a, b) strcmp_(a, b)
#define strncmp(a, b, most) strncmp_(a, b, most)
#define strchr(text, byte) strchr_(text, byte)
#define __builtin_memcmp(a, b, length) memcmp(a, b, length)
#define __builtin_memcpy(to, from, length) memcpy(to, from, length)
#define __builtin_memset(to, byte, length) memset(to, byte, length)
#define __builtin_memmove(to, from, length) memmove(to, from, length)
#define __builtin_memchr(from, byte, length) memchr(from, byte, length)
#define __builtin_strlen(text) strlen(text)
#define __builtin_strcmp(a, b) strcmp(a, b)
#define __builtin_strncmp(a, b, most) strncmp(a, b, most)
#define __builtin_strchr(text, byte) strchr(text, byte)

/* A program prints nothing, and computes what would be printed. */
#define printf(...)								\
	({									\
		_Pragma("GCC diagnostic push")					\
		_Pragma("GCC diagnostic ignored \"-Wunused-value\"")		\
		(void)(0, __VA_ARGS__);						\
		_Pragma("GCC diagnostic pop")					\
	})
#define fprintf(file, ...) printf(__VA_ARGS__)
#define puts(text) printf("%s", text)
#define putchar(byte) printf("%c", byte)

#endif

#endif
