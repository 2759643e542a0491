/*
 * A checker as a native program that judges files, so that the very source runs under
 * a debugger, with sanitizers, and with printf:
 *
 *     cc -g -Og -I include -include include/native/checker.h check.c -o check
 *     crashbpf image writes.log 18 --sectors 8 > broken.img
 *     ./check --marks 3 broken.img                  prints: answer 1 codes 1
 *
 * In front of all else of the source, it takes the place of ../checker.h. The checker
 * is the function `check`, or NAME with -DCHECKER=NAME. A file is a device, sector
 * after sector (`-` is standard input); --marks N and --epoch N, 0 where they aren't
 * given, hold for the files after them. For each file a line is printed, with the
 * answer and the codes as a line of a report has them. The status is 0 where all
 * answers are 0, and 1 where one isn't.
 *
 * The helpers are those of docs/MACHINE.md. Turns are counted as in the program: for
 * each place, and for each place from which an inlined function is called (on x86-64
 * and aarch64; elsewhere calls of one function share their turns). A loop without
 * TURN has no bound here. Each sector is memory of its own, so AddressSanitizer finds
 * what reads past its end. Numbers that aren't aligned are read as on the machine,
 * which C leaves undefined: -fno-sanitize=alignment.
 *
 * Compile with -O0 or -Og: with more, a compiler may write a loop's body twice, and
 * then each has its own turns.
 *
 * Each judgement begins with the variables as the source gives them. So all files but
 * the last are judged by children of this process; the last, or the only one, is judged
 * by this process itself.
 *
 * A source may have a function `mend_sums`, which gives a changed image the checksums that
 * its writer would give it:
 *
 *     #ifdef CHECKER_NATIVE
 *     void mend_sums(u8 *image, u64 bytes)
 *     {
 *             u32 sum = ~crc32c_memory(CRC32C_START, image, 508);
 *
 *             memcpy(image + 508, &sum, 4);
 *     }
 *     #endif
 *
 * The helpers and u32_at() see the image as it stands. `./check --mend FILE` changes a file
 * so, and judges nothing; the status is 3 where the source has no such function.
 * `crashbpf-cc --against` mends most of its mutants by it.
 *
 * `./check --reads FILE` prints in front of the answer the places of the first 20,000 reads,
 * as `read 512 8` for 8 bytes from byte 512 on.
 */
#ifndef NATIVE_CHECKER_H
#define NATIVE_CHECKER_H
#define CHECKER_NATIVE

#include <stdio.h>
#include <stdlib.h>
#include <string.h>
#include <sys/wait.h>
#include <unistd.h>

#define LOCAL(checker) static __attribute__((noinline, unused))
#define HELPER_(number, answer, name, ...) static answer name(__VA_ARGS__) __attribute__((unused))

/* How often a place has been passed in a run, which is known by its number. */
struct passed_ {
	unsigned long long run, times;
};

static int again_(struct passed_ *passed, unsigned long long times) __attribute__((unused));

/* The place's own `struct passed_`, one for each copy of the code. */
#if defined(__x86_64__) && defined(__ELF__)
#define PASSED_(p)								\
	__asm__ volatile(".pushsection .data.passed_,\"aw\"\n\t.balign 8\n1:\t.quad 0, 0\n\t"	\
			 ".popsection\n\tleaq 1b(%%rip), %0" : "=r"(p))
#elif defined(__aarch64__) && defined(__ELF__)
#define PASSED_(p)								\
	__asm__ volatile(".pushsection .data.passed_,\"aw\"\n\t.balign 8\n1:\t.quad 0, 0\n\t"	\
			 ".popsection\n\tadrp %0, 1b\n\tadd %0, %0, :lo12:1b" : "=r"(p))
#else
#define PASSED_(p) static struct passed_ place_; (p) = &place_
#endif

#define AT_MOST(times, end)			\
	do {					\
		struct passed_ *passed_;	\
		PASSED_(passed_);		\
		if (!again_(passed_, times))	\
			goto end;		\
	} while (0)

#define BELOW(i, n, otherwise)						\
	({								\
		_Static_assert(sizeof(i) == 8 && (__typeof__(i))-1 > 0,	\
			       "the index of BELOW has to be a u64");	\
		if ((i) > (u64)((n) - 1)) {				\
			otherwise;					\
		}							\
	})

#define SECTOR(n, otherwise)				\
	({						\
		const void *sector_ = sector(n);	\
		if (!sector_) {				\
			otherwise;			\
		}					\
		sector_;				\
	})

#define KEEP(x) __asm__ volatile("" : "+r"(x))

#define ELEMENT(p, i, n, otherwise)				\
	({							\
		__typeof__(&(p)[0]) element_ = (p);		\
		u64 index_ = (i);				\
		BELOW(index_, n, otherwise);			\
		element_ + index_;				\
	})

#include "../checker.h"

void mend_sums(u8 *image, u64 bytes) __attribute__((weak));

#define SECTOR_BYTES_ 512
#define CODES_ 16
#define SHOWN_ 20000

/* The device, what was reported, the number of the run, and of how many reads the place is still printed. */
static struct {
	u64 sectors;
	u8 **bytes;
	u64 codes[CODES_];
	u64 reported;
	u64 run;
	u64 shown;
} device_;

static void fail_(const char *what, const char *name)
{
	fprintf(stderr, "%s%s%s\n", name, *name ? ": " : "", what);
	exit(2);
}

static int again_(struct passed_ *passed, unsigned long long times)
{
	if (passed->run != device_.run) {
		passed->run = device_.run;
		passed->times = 0;
	}
	if (passed->times >= times)
		return 0;
	passed->times++;
	return 1;
}

static u8 *sector_(u64 n)
{
	return n < device_.sectors ? device_.bytes[n] : 0;
}

/* Prints the place of a read, where that is asked for. */
static void show_(u64 at, u64 length)
{
	if (device_.shown) {
		device_.shown--;
		printf("read %llu %llu\n", at, length);
	}
}

static const void *sector(u64 n)
{
	if (n < device_.sectors)
		show_(SECTOR_BYTES_ * n, SECTOR_BYTES_);
	return sector_(n);
}

static u64 copy(u64 at, void *to, u64 length)
{
	u64 past = 0;

	if (length < 1 || length > SECTOR_BYTES_)
		fail_("copy takes 1 to 512 bytes", "");
	show_(at, length);
	for (u64 i = 0; i < length; i++) {
		const u8 *bytes = at + i < at ? 0 : sector_((at + i) / SECTOR_BYTES_);

		((u8 *)to)[i] = bytes ? bytes[(at + i) % SECTOR_BYTES_] : 0;
		past |= !bytes;
	}
	return past;
}

static u64 report(u64 code)
{
	if (device_.reported == CODES_)
		return 1;
	device_.codes[device_.reported++] = code;
	return 0;
}

static u64 zero(u64 n)
{
	const u8 *bytes = sector(n);

	if (!bytes)
		return 2;
	for (int i = 0; i < SECTOR_BYTES_; i++)
		if (bytes[i])
			return 0;
	return 1;
}

static u64 mix(u64 n)
{
	const u8 *bytes = sector(n);
	u64 mixed = 0;

	if (!bytes)
		return 0;
	for (int lane = 0; lane < 8; lane++) {
		u64 sum = 0, word;

		for (int row = 0; row < 8; row++) {
			memcpy(&word, bytes + 8 * (8 * row + lane), 8);
			sum = sum * 1000003 + word;
		}
		mixed = mixed * 16777619 + sum;
	}
	return mixed;
}

static u64 same(u64 a, u64 b)
{
	const u8 *x = sector(a), *y = sector(b);

	return !x || !y ? 2 : memcmp(x, y, SECTOR_BYTES_) == 0;
}

/* The checksums of helpers 8 to 11, bit by bit. */
static u64 crc_(u64 crc, const u8 *from, u64 length, u32 polynomial)
{
	u32 sum = crc;

	for (u64 i = 0; i < length && i < 4096; i++) {
		sum ^= from[i];
		for (int bit = 0; bit < 8; bit++)
			sum = sum >> 1 ^ (sum & 1 ? polynomial : 0);
	}
	return sum;
}

static u64 crc_at_(u64 crc, u64 at, u64 length, u32 polynomial)
{
	u8 piece[512];

	if (length > 4096)
		length = 4096;
	while (length > 0) {
		u64 count = length < 512 ? length : 512;

		copy(at, piece, count);
		crc = crc_(crc, piece, count, polynomial);
		at += count;
		length -= count;
	}
	return crc;
}

static u64 crc32c_part(u64 crc, u64 at, u64 length)
{
	return crc_at_(crc, at, length, 0x82f63b78);
}

static u64 crc32_part(u64 crc, u64 at, u64 length)
{
	return crc_at_(crc, at, length, 0xedb88320);
}

static u64 crc32c_memory_part(u64 crc, const void *from, u64 length)
{
	return crc_(crc, from, length, 0x82f63b78);
}

static u64 crc32_memory_part(u64 crc, const void *from, u64 length)
{
	return crc_(crc, from, length, 0xedb88320);
}

/* Under AddressSanitizer a sector has bytes around it that may not be read, for indices that lead far. */
#ifdef __SANITIZE_ADDRESS__
#define MARGIN_ 65536
void __asan_poison_memory_region(void const volatile *bytes, size_t length);
#else
#define MARGIN_ 0
#define __asan_poison_memory_region(bytes, length) ((void)0)
#endif

static u8 *new_sector_(void)
{
	u8 *bytes = malloc(SECTOR_BYTES_ + 2 * MARGIN_);

	if (!bytes)
		fail_("out of memory", "");
	__asan_poison_memory_region(bytes, MARGIN_);
	__asan_poison_memory_region(bytes + MARGIN_ + SECTOR_BYTES_, MARGIN_);
	return bytes + MARGIN_;
}

/* Reads a device from a file; what lies after its last whole sector is a fault. */
static void read_device_(const char *name)
{
	FILE *file = strcmp(name, "-") == 0 ? stdin : fopen(name, "rb");
	u8 *bytes = new_sector_();
	size_t length = 0;

	if (!file)
		fail_("can't be read", name);
	for (u64 i = 0; i < device_.sectors; i++)
		free(device_.bytes[i] - MARGIN_);
	device_.sectors = 0;
	while ((length = fread(bytes, 1, SECTOR_BYTES_, file)) == SECTOR_BYTES_) {
		device_.bytes = realloc(device_.bytes, (device_.sectors + 1) * sizeof *device_.bytes);
		if (!device_.bytes)
			fail_("out of memory", name);
		device_.bytes[device_.sectors++] = bytes;
		bytes = new_sector_();
	}
	if (length || !device_.sectors)
		fail_("isn't one or more sectors of 512 bytes", name);
	free(bytes - MARGIN_);
	if (file != stdin)
		fclose(file);
}

#ifndef CHECKER
#define CHECKER check
#endif
u64 CHECKER(const struct context *context);

/* Judges the device at hand, and prints the line. */
static int judge_(const struct context *context)
{
	struct context *given = malloc(sizeof *given);
	u64 answer;

	if (!given)
		fail_("out of memory", "");
	*given = *context;
	device_.run++;
	device_.reported = 0;
	answer = CHECKER(given);
	free(given);
	printf("answer %llu codes ", answer);
	for (u64 i = 0; i < device_.reported; i++)
		printf(i ? ",%llu" : "%llu", device_.codes[i]);
	printf(device_.reported ? "\n" : "-\n");
	fflush(stdout);		/* also where the checker is ended at the next file */
	return answer != 0;
}

/* Judges the device at hand in a child, so that what the checker writes to its variables is gone after it. */
static int judge_apart_(const struct context *context)
{
	int status = 0;
	pid_t child = fork();

	if (child < 0)
		fail_("no process", "");
	if (child == 0)
		_exit(judge_(context));
	if (waitpid(child, &status, 0) != child)
		fail_("no process", "");
	if (!WIFEXITED(status) || WEXITSTATUS(status) > 1)
		exit(WIFEXITED(status) ? WEXITSTATUS(status) : 128 + WTERMSIG(status));
	return WEXITSTATUS(status);
}

/* Gives the file of an image its sums. */
static int mend_(const char *name)
{
	u8 *image;
	FILE *file;

	if (!mend_sums)
		return 3;
	read_device_(name);
	image = malloc(SECTOR_BYTES_ * device_.sectors);
	if (!image)
		fail_("out of memory", name);
	for (u64 i = 0; i < device_.sectors; i++) {
		memcpy(image + SECTOR_BYTES_ * i, device_.bytes[i], SECTOR_BYTES_);
		device_.bytes[i] = image + SECTOR_BYTES_ * i;
	}
	device_.run++;
	mend_sums(image, SECTOR_BYTES_ * device_.sectors);
	file = fopen(name, "wb");
	if (!file || fwrite(image, SECTOR_BYTES_, device_.sectors, file) != device_.sectors || fclose(file))
		fail_("can't be written", name);
	return 0;
}

int main(int count, char **words)
{
	struct context context = { 0 };
	int failing = 0, judged = 0;

	if (count == 3 && strcmp(words[1], "--mend") == 0)
		return mend_(words[2]);
	if (count == 3 && strcmp(words[1], "--reads") == 0) {
		device_.shown = SHOWN_;
		words++;
		count--;
	}
	for (int i = 1; i < count; i++) {
		u64 *number = strcmp(words[i], "--marks") == 0 ? &context.marks
			    : strcmp(words[i], "--epoch") == 0 ? &context.epoch : 0;

		if (number && i + 1 < count) {
			*number = strtoull(words[++i], 0, 0);
			continue;
		}
		read_device_(words[i]);
		context.sectors = device_.sectors;
		failing |= i + 1 < count ? judge_apart_(&context) : judge_(&context);
		judged = 1;
	}
	if (!judged)
		fail_("usage: [--marks N] [--epoch N] IMAGE.. | --mend IMAGE | --reads IMAGE", words[0]);
	return failing;
}

#endif
