#!/usr/bin/env python3
"""Compiles small checkers with variables, tables, strings, checksums and the functions of the library, and runs them.

    tests/by_hand/cc_memory.py [PROGRAM]

takes each compiler that is there, compiles by `crashbpf-cc`, runs the program by machine_model.py with guards, and compares its
answer with the one that stands here. By gcc each call of `copy` has its length loaded in front of it. Without PROGRAM it needs no
`crashbpf` and no verifier. With it each program is verified for 64 sectors too, and `check --guards` has to answer the same.
"""
import binascii
import os
import shutil
import subprocess
import sys
import tempfile
import zlib
from pathlib import Path

sys.dont_write_bytecode = True

import rooms

rooms.enter()

from machine_model import ALU, ALU64, LDX, decoded, judged, summed
from notation import TOP

CC = TOP / "commands/cc/crashbpf-cc"
SECTORS = 64
DEVICE = bytes((7 * at + at // 251) % 256 for at in range(512 * SECTORS))
CRC32C = summed(0x82F63B78, 0xFFFFFFFF, DEVICE[100:9100]) ^ 0xFFFFFFFF
# Answers by other programs: zlib's, and xxHash's own test vectors.
CRC32 = zlib.crc32(DEVICE[100:9100])
ADLER = zlib.adler32(DEVICE[:1000])
MASK = 2**64 - 1
ROOM = 65536
MOVE_NUMBER, CALL, COPY = 0xB7, 0x85, 2
# What no refusal passes on of a compiler's words.
FOREIGN = ("per-cpu", "built-in", "BPF stack", "DAG")
LONG = " ".join(["the quick brown fox jumps over the dog"] * 4)


class Image:
    """An image of 64 sectors, at cut 0 with an epoch and marks of their own."""

    class run:
        sectors = SECTORS

    def sector(self, number):
        return DEVICE[512 * number : 512 * number + 512]

    def epoch(self):
        return 3

    def marks(self):
        return 1


def xxhash64(seed, content):
    """xxHash of 64 bits, from its description."""
    one, two, three, four, five = 0x9E3779B185EBCA87, 0xC2B2AE3D27D4EB4F, 0x165667B19E3779F9, 0x85EBCA77C2B2AE63, 0x27D4EB2F165667C5
    rotated = lambda x, bits: (x << bits | x >> (64 - bits)) & MASK
    turn = lambda sum_, x: rotated((sum_ + x * two) & MASK, 31) * one & MASK
    number = lambda at, size: int.from_bytes(content[at : at + size], "little")
    at, end = 0, len(content)
    if end >= 32:
        sums = [(seed + one + two) & MASK, (seed + two) & MASK, seed, (seed - one) & MASK]
        while end - at >= 32:
            sums = [turn(it, number(at + 8 * i, 8)) for i, it in enumerate(sums)]
            at += 32
        hash_ = sum(rotated(it, bits) for it, bits in zip(sums, (1, 7, 12, 18))) & MASK
        for it in sums:
            hash_ = ((hash_ ^ turn(0, it)) * one + four) & MASK
    else:
        hash_ = (seed + five) & MASK
    hash_ = (hash_ + end) & MASK
    while end - at >= 8:
        hash_ = (rotated(hash_ ^ turn(0, number(at, 8)), 27) * one + four) & MASK
        at += 8
    if end - at >= 4:
        hash_ = (rotated(hash_ ^ number(at, 4) * one & MASK, 23) * two + three) & MASK
        at += 4
    for byte in content[at:]:
        hash_ = rotated(hash_ ^ byte * five & MASK, 11) * one & MASK
    hash_ = (hash_ ^ hash_ >> 33) * two & MASK
    hash_ = (hash_ ^ hash_ >> 29) * three & MASK
    return hash_ ^ hash_ >> 32


# A variable that is tested for a length lies on the stack, since others are used more often.
ON_STACK = """
	u64 n = c->marks, a = 0, b = 1, d = 2, e = 3;
	for (;;) {
		TURN(9, return a + b + d + e);
		e += zero(a);
		d += u8_at(a);
		a += zero(b);
		a ^= e;
		a += u8_at(b);
		if (n == 5) {
			b ^= a;
			a += u8_at(e);
			a ^= d;
			d = d * 3 + u16_at(d);
			copy(b, m, 5);
			e += m[1];
		}
		n++;
	}
"""
AFTER = "r = a[1] * 3 + a[2] * 5 + a[c->epoch + 8]; zero(r);"

SUM = "static u64 sum(const void *from, u64 n) { const u8 *p = from; u64 s = 0; for (u64 i = 0; i < n; i++) s = s * 31 + p[i]; return s; }\n"
ONCE = "static u64 once(u64 n) { u8 b[600] = { 1, 2, 3 }; b[n] += 5; b[n + 400] = 7; return sum(b, 600); }"
IN_A_LOOP = """
	u64 n = 0;

	for (u64 i = 0; i < c->epoch + 3; i++) {
		u8 b[1000] = { 0 };
		u32 words[200] = {
			[3] = 5, 7,
			[150] = 0x12345678,
		};

		b[i * 7]++;
		words[i] += words[150];
		n = n * 5 + sum(b, 1000) + sum(words, sizeof words);
	}
	return n;
"""
TEXTS = """
	char text[] = "the quick brown fox jumps over the lazy dog, and again: the quick brown fox jumps over the lazy dog";
	const u16 table[] = { 3, 1, 4, 1, 5, 9, 2, 6, 5, 3, 5, 8, 9, 7, 9, 3, 2, 3, 8, 4, 6, 2, 6, 4, 3, 3, 8, 3, 2, 7, 9, 5, 0, 2, 8, 8 };
	const char *names[70] = { "zero", "one", "two", "three" };
	const char *const fixed[] = { "nine", "ten", "eleven", "twelve", "thirteen", "fourteen", "fifteen", "sixteen" };
	u8 big[500];

	copy(0, big, 500);
	text[c->epoch] = 'X';
	names[c->marks] = fixed[c->epoch];
	return sum(text, sizeof text) + table[c->epoch + 4] * sizeof table + names[c->marks][1] + !names[c->marks + 40] + big[c->marks] + sizeof names;
"""
STATES = "struct state { u32 h[8]; u64 length; u8 buffer[600]; u64 used; }; struct pair { u64 a, b; };\n"
UNKNOWN = """
	u64 words[80] = { c->epoch, c->marks, c->epoch + c->marks }, n = 4, *p = &words[1], others[40];
	struct state s = { .length = c->epoch, .used = n, .h[2] = 5 };
	struct state t = s;
	const struct pair pairs[20] = { { 1, 2 }, { 3, 4 } };
	const u64 fixed[30] = { c->epoch, 9 };

	for (u64 i = 0; i < 40; i++)
		others[i] = i * n;
	t.buffer[c->epoch] = 9;
	s.buffer[c->marks] = 3;
	*p += 5;
	n = sum(words, sizeof words) + sum(others, sizeof others) + t.buffer[3] * 100 + s.buffer[3] + t.h[2] + t.length;
	return n + s.used + pairs[c->marks].b + fixed[c->marks] + fixed[2];
"""
GRIDS = """
	grid a, b = { .last = { 7, 8 } }, *p = &b;
	struct { u8 x[300]; u16 y; } own = { .y = 9 };
	union { u8 bytes[256]; u32 words[64]; } both = { .words = { 1, 2 } };
	u64 n = filled(&a, c->epoch) + filled(p, c->marks);

	own.x[c->epoch] = 4;
	n += sum(a.rows, 640) + 3 * sum(b.rows, sizeof b.rows) + b.last.a + p->last.b;
	return n + own.x[3] + own.x[4] + own.y + both.bytes[4] + both.words[40];
"""
GRID = "typedef struct { u8 rows[16][40]; struct { u64 a, b; } last; } grid;\n" \
    "static u64 filled(grid *g, u64 n) { for (u64 i = 0; i < 16; i++) for (u64 k = 0; k < 40; k++) g->rows[i][k] = i * k + n; return g->rows[n][n + 1]; }\n"
APART = "LOCAL(check) u64 apart(u64 at, u64 n) { u8 b[512], d[200] = { 4 }; read_bytes(at, b, 512); d[n]++; return b[n] + b[511] + d[0] + d[n]; }"
MACROS = """
#define BUFFER(name, n) u8 name[n] = { [(n) - 1] = 3 }
#define SUMMED(at) ({ u8 it_[300]; read_bytes(at, it_, 300); sum(it_, 300); })
"""
JUMPS = """
	BUFFER(a, 301);
	BUFFER(b, 407); u64 n = 0;

again:;
	u8 seen[100] = { 0 };
	switch (c->epoch) {
	case 3: {
		u8 in[200] = "case";
		in[n]++;
		n += sum(in, 200);
		break;
	}
	default:
		return 1;
	}
	seen[n & 63]++;
	a[n & 255] = 4;
	if (n++ < 1000)
		goto again;
	return n + SUMMED(40) + SUMMED(41 + c->marks) + sum(a, 301) + sum(b, 407) + sum(seen, 100);
"""
CHAIN = """
static u64 inner(u64 at) { u8 b[4096]; u64 n = 0; read_bytes(at, b, 4096); for (u64 i = 0; i < 4096; i++) n += b[i] * i; return n; }
static u64 outer(u64 at) { u8 b[8192]; read_bytes(at, b, 8192); u64 n = inner(at + 7); return n + inner(at + 9) + b[4000] * sum(b, 100) + b[8191]; }
"""
SMALL = "static u64 small(u64 at) { u64 w[6] = { at, 1 }; w[at & 3] += 2; return w[0] * 3 + w[1] * 5 + w[2] + w[5]; }"
SMALLS = """
	u8 b[520] = "";
	u64 w[7] = { 1, 2, 3 }, v[7] = { 4 }, u[7] = { 5 }, s[7] = { 6 }, t[7] = { 7 };
	w[c->epoch]++; v[c->epoch]++; u[c->epoch]++; s[c->epoch]++; t[c->marks]++; b[c->epoch] = 5;
	return sum(w, 56) + sum(v, 56) + sum(u, 56) + sum(s, 56) + sum(t, 56) + small(c->epoch) + small(4) + sum(b, 520);
"""
DIVIDED = "static int f(int a, int b) { return a % b + a / 8 - a / 10; }"
DIVISIONS = """
	long long x = -1000 - (long long)c->epoch;
	short s = x;
	signed char k = x;
	return x / ((long long)c->marks + 6) * 100 + f(x, -7 * (int)c->marks) + x % 10 + s / (short)(c->marks + 2) + k % 5;
"""

FUNCTIONS = "static u64 a(u64 n) { return n + 1; } static u64 b(u64 n) { return n + 2; } "
OPS = "struct op { u64 kind; u64 (*run)(u64); }; static const struct op ops[] = { { 5, a }, { .run = &b, .kind = 7 }, { 0 } }; "
# The functions that are called come later; large locals in one of them.
SORTED = """
typedef int order(const u8 *, const u8 *);
static void sort(u8 *x, u64 n, order *by) { for (u64 i = 1; i < n; i++) for (u64 k = i; k > 0 && by(x + k - 1, x + k) > 0; k--) { u8 t = x[k]; x[k] = x[k - 1]; x[k - 1] = t; } }
static int up(const u8 *x, const u8 *y) { return *x - *y; }
static int down(const u8 *x, const u8 *y) { u8 b[600]; read_bytes(0, b, 600); return (b[*y] > b[*x]) - (b[*y] < b[*x]); }
"""

# Each row: what it is about, the text outside of the function, its body, and the answer.
ROWS = [
    ("a variable", "static u32 count = 5;", "for (u64 i = 0; i < c->epoch; i++) count += i; return count;", 8),
    ("one without a value", "static u64 sum;", "for (u64 i = 0; i < 4; i++) sum += i; return sum;", 6),
    ("a variable of the function", "", "static u64 seen = 40; seen += c->marks; return seen;", 41),
    ("a table of words", "static u64 t[4] = { 3, 5, 0x1122334455667788, 9 };", "return t[c->epoch & 3] + (t[2] >> 56) + t[c->marks];", 9 + 0x11 + 5),
    ("a table of constants", "static const u16 t[5] = { 9, 8, 7, 6, 65535 };", "u64 n = 0; for (u64 i = 0; i < 5; i++) n += t[i]; return n;", 30 + 65535),
    ("a table by a pointer", "static const u8 t[4] = { 2, 3, 4, 5 };", "const u8 *p = t + c->marks; u64 n = 0; for (u64 i = 0; i < 3; i++) n += *p++; return n;", 12),
    ("an array with its numbers", "", "u64 used[4] = { 3, 0, 7, 1 }; used[c->marks] += 2; return used[0] + 10 * used[c->epoch & 3] + 100 * used[1];", 213),
    ("a struct with its fields", "struct it { u8 a; u32 b; u64 c; }; static struct it s = { 1, 70000, 1ull << 40 };", "s.b += c->marks; return s.a + s.b + (s.c >> 38);", 70006),
    ("a string", 'static const char *name = "abc";', "return name[c->marks] + name[c->epoch];", ord("b")),
    ("three strings by one function that is inlined", "static inline u64 letters(const char *text) { u64 n = 0; while (*text++) n++; return n; }", 'return letters("alpha") + 100 * letters("super block") + 10000 * letters("trailers");', 5 + 1100 + 80000),
    ("places within strings", "static inline u64 words(const char *text) { u64 n = 1; for (const char *at = text + 1; *at; at++) n += at[-1] == ' '; return n; }", 'return words("a b c") + 100 * words("one") + 10000 * words("the quick brown fox");', 3 + 100 + 40000),
    ("a pointer into a string", "", 'static const char *const tails[] = { &"alpha"[2], &"alphabet"[3], &"beta"[1] }; return strlen(tails[c->marks]) + 100 * tails[c->epoch - 1][0];', 5 + 100 * ord("e")),
    ("strings by a table", 'static const char *names[] = { "zero", "one", "two", "three" };', "return names[c->epoch & 3][1] + strlen(names[c->marks]);", ord("h") + 3),
    ("strncmp", 'static char a[] = "commit 7"; static char b[] = "commit 9";', "return (strncmp(a, b, 7) == 0) + 2 * (strncmp(a, b, 8) < 0) + 4 * (strncmp(b, a, 64) > 0);", 7),
    ("buffers", "static u8 big[40000]; static u8 other[20000];", "big[39999] = 3; other[c->epoch] = 4; return big[39998 + c->marks] + other[3] + big[0];", 7),
    ("memset and memcpy", "static u8 a[300], b[300];", "memset(a, 7, 300); memcpy(b + 1, a, c->epoch + 200); return b[0] + b[203] + b[204];", 7),
    ("memmove", "static u8 a[10] = { 1, 2, 3, 4, 5, 6, 7, 8, 9, 10 };", "memmove(a + c->marks, a, 8); memmove(a, a + 2, 3); return a[0] + 10 * a[1] + 100 * a[8];", 2 + 30 + 800),
    ("memcmp", "static u8 a[9] = { 1, 2 }, b[9] = { 1, 3 };", "return (memcmp(a, b, c->epoch) < 0) + 2 * (__builtin_memcmp(a, b, 1) == 0);", 3),
    ("a function that is LOCAL", "static u64 total; LOCAL(check) u64 add(u64 n) { total += n; return total; }", "add(c->epoch); return add(4) + 100 * total;", 707),
    ("read_bytes", "static u8 a[3000];", "u64 past = read_bytes(100, a, 2000 + c->epoch); return past + a[0] + 256 * a[2002] + 65536 * a[2003];", DEVICE[100] + 256 * DEVICE[2102]),
    ("read_bytes past the device", "static u8 a[600];", f"a[20] = 9; return read_bytes({512 * SECTORS - 20}, a, 520) + 2 * a[20] + 4 * (a[19] == {DEVICE[-1]});", 5),
    ("crc32c of the device", "", "return (u32)~crc32c_at(CRC32C_START, 97 + c->epoch, 9000);", CRC32C),
    ("crc32 of the device", "", "return (u32)~crc32_at(CRC32C_START, 97 + c->epoch, 9000);", CRC32),
    ("crc32c of memory", "static u8 a[9000];", "read_bytes(100, a, 9000); return (u32)~crc32c_memory(CRC32C_START, a, 9000);", CRC32C),
    ("crc32 of memory", "static u8 a[9000];", "read_bytes(100, a, 9000); return (u32)~crc32_memory(CRC32C_START, a, 9000);", CRC32),
    ("crc32c of the stack", "", "u8 a[64]; copy(100, a, 64); return (u32)~crc32c_memory(CRC32C_START, a, 64);", summed(0x82F63B78, 0xFFFFFFFF, DEVICE[100:164]) ^ 0xFFFFFFFF),
    ("no byte", "", "return crc32c_at(5, 0, c->marks - 1);", 5),
    ("adler32", "static u8 a[1000];", "read_bytes(0, a, 1000); return adler32_memory(1, a, 1000);", ADLER),
    ("fletcher", "static u8 a[400];", "read_bytes(0, a, 400); struct fletcher_sums f = { 0, 0 }; f = fletcher64_memory(f, a, 100, 0xffffffff); return f.low ^ f.high << 32;", None),
    ("xxhash64", "static u8 a[200];", "read_bytes(0, a, 200); return xxhash64_memory(c->epoch, a, 199) ^ xxhash64_memory(0, a, 0) ^ xxhash64_memory(1, a, 13);", None),
    ("bits", "static u8 a[100];", "read_bytes(0, a, 100); return bits_set(a, 397) + 1000 * bit_of(a, 8) + 10000 * bit_of(a, 11);", None),
    ("big-endian numbers", "static u8 a[16] = { 1, 2, 3, 4, 5, 6, 7, 8, 9 };", "return u16_in_be(a + 1) + u32_in(a + c->marks) % 65536 + u64_in_be(a + c->marks) % 256;", 0x0203 + 0x0302 + 9),
    ("an array of words with its numbers", "", "u64 used[2] = { 3, 0 }; used[c->marks & 1] += 5; return used[0] * 10 + used[1];", 35),
    ("an array of bytes with numbers", "", "u8 a[200] = { 1, 2, 3 }; a[c->epoch + 100] = 9; u64 n = 0; for (u64 i = 0; i < 200; i++) n += a[i]; return n;", 15),
    ("a long text", "", f'char a[200] = "{LONG}"; u64 n = 0; for (u64 i = 0; i < 200; i++) n = (n * 31 + a[i]) % 1000003; return n;', None),
    ("a table for a function that is LOCAL", "static const u16 t[5] = { 3, 17, 900, 5, 7 }; LOCAL(check) u64 sum(const u16 *p, u64 n) { u64 s = 0; for (u64 i = 0; i < n; i++) { TURN(40, return 1); s += p[i]; } return s; }", "return sum(t + c->marks, 4) + sum(t, 2);", 949),
    ("pointers in a table", "static u8 a[8] = { 1 }, b[8] = { 2 }; static u8 *const ps[2] = { a, b }; static u8 *p = &a[2];", "p[1] = 7; return ps[c->marks][0] * 10 + ps[0][0] + a[c->epoch] * 100;", 721),
    ("a table of structs", 'struct p { u64 a; u32 b; const char *name; }; static const struct p ps[] = { { 1, 2, "one" }, { 3, 4, "two!" } };', "return ps[c->marks].a + strlen(ps[c->marks].name) * 10;", 43),
    ("a union", "union u { u64 w; u8 b[8]; }; static union u x = { 0x1122334455667788 };", "return x.b[c->marks] + (x.w >> 56);", 0x77 + 0x11),
    ("rows of a table", "static u8 m[16][32];", "m[c->epoch][c->marks] = 7; u64 n = 0; for (u64 i = 0; i < 16; i++) for (u64 k = 0; k < 32; k++) n += m[i][k] * (i + k); return n;", 28),
    ("texts by a switch", "", 'const char *n; switch (c->epoch) { case 0: n = "a"; break; case 1: n = "bb"; break; case 2: n = "ccc"; break; case 3: n = "dddd"; break; case 4: n = "e"; break; default: n = ""; } return strlen(n);', 4),
    ("all of the memory", f"static u8 a[{ROOM - 8}]; static u64 b;", f"a[c->epoch + {ROOM - 12}] = 5; b = 6; return a[{ROOM - 9}] + b + a[0];", 11),
    ("a variable of another function", "static u8 other[60000]; u64 second(const struct context *c) { return other[c->marks]; } static u8 own[60000];", "own[c->epoch + 50000] = 5; return own[50003];", 5),
    ("a struct of many bytes", "struct it { u8 b[300]; }; static struct it x, y;", "read_bytes(0, &x, 300); y = x; return y.b[c->epoch + 200];", DEVICE[203]),
    ("a struct of many words", "struct it { u64 b[250]; }; static struct it x, y;", "read_bytes(0, &x, 2000); if (c->epoch == 3) y = x; return y.b[c->epoch + 100] % 65536 + y.b[249] % 65536;", int.from_bytes(DEVICE[824:826], "little") + int.from_bytes(DEVICE[1992:1994], "little")),
    ("a struct that is copied to a local", "struct it { u8 b[300]; }; static struct it x;", "read_bytes(0, &x, 300); struct it y = x; y.b[c->epoch + 10] = 9; return y.b[c->epoch + 200] + y.b[13];", DEVICE[203] + 9),
    ("a struct of a sector", "struct it { u8 b[301]; };", "struct it y = *(const struct it *)SECTOR(1, return 1); y.b[c->epoch + 10] = 9; return y.b[c->epoch + 200] + y.b[300] * 256;", DEVICE[715] + 256 * DEVICE[812]),
    ("a local struct of a local one", "struct it { u8 b[200]; };", "struct it x, y; copy(0, &x, 200); y = x; y.b[0]++; return y.b[c->epoch + 100] + 256 * (y.b[0] - x.b[0]);", DEVICE[103] + 256),
    ("a struct that is set to 0", "struct it { u8 b[303]; u32 n; }; static struct it x, y;", "read_bytes(0, &x, 300); y = x; x = (struct it){ 0 }; x.n = c->epoch; return y.b[c->epoch + 200] + x.n * 256 + x.b[c->epoch];", DEVICE[203] + 768),
    ("structs that are copied in a loop", "struct it { u8 b[300]; }; static struct it x[4];", "read_bytes(0, &x, 1200); for (u64 i = 0; i < c->epoch; i++) x[i] = x[i + 1]; return x[0].b[c->epoch] + 256 * x[2].b[299];", DEVICE[303] + 256 * DEVICE[1199]),
    ("structs that are copied in a function that is LOCAL", "struct it { u8 b[300]; }; static struct it x, y; LOCAL(check) u64 swap(u64 n) { struct it t = x; x = y; y = t; return x.b[n]; }", "read_bytes(0, &x, 300); read_bytes(300, &y, 300); return swap(c->epoch) + 256 * swap(4) + 65536 * y.b[5];", DEVICE[303] + 256 * DEVICE[4] + 65536 * DEVICE[305]),
    ("memcpy of many bytes", "static u8 x[4096], y[4096];", "read_bytes(0, x, 4096); __builtin_memcpy(y, x, 4096); memset(x, 7, 4096); return y[c->epoch + 4000] + 256 * x[c->epoch + 4000];", DEVICE[4003] + 1792),
    ("memcmp of many bytes", "static u8 x[300], y[300];", "read_bytes(0, x, 300); read_bytes(0, y, 300); y[299] ^= 1; return (__builtin_memcmp(x, y, 300) == 0) + 2 * (__builtin_memcmp(x, y, 298 + c->marks) == 0) + 4 * (memcmp(x, y, 299) == 0);", 6),
    ("a copy of as many bytes as a variable was tested for", "static u8 a[4];", "u64 n = c->epoch; if (n != 3) return 1; copy(100, a, 3); return a[2] + 256 * n;", DEVICE[102] + 768),
    ("the same, of a variable on the stack", "static u8 m[8];", ON_STACK, None),
    ("bytes that are read, as many as a variable was tested for", "static u8 a[40];", "u64 n = c->epoch + c->marks; if (n == 4) read_bytes(n, a, 4); if (n * 9 == 36) read_bytes(n, a + 4, 36); return a[3] + 256 * a[39];", DEVICE[7] + 256 * DEVICE[39]),
    ("two copies of two lengths", "static u8 a[64];", "if (c->marks) copy(512, a, 16); else copy(1024, a, 8); return a[1] + 256 * a[12];", DEVICE[513] + 256 * DEVICE[524]),
    ("the same, with the same after them", "static u8 a[64];", f"u64 r; if (c->marks) {{ copy(512, a, 16); {AFTER} }} else {{ copy(512, a, 8); {AFTER} }} return r;", 3 * DEVICE[513] + 5 * DEVICE[514] + DEVICE[523]),
    ("strncmp with a text", "", 'static const char a[] = "JBD2 hdr"; char b[8] = "JBD2 xyz"; b[c->marks] += c->epoch - 3; return (strncmp(a, b, 4) == 0) + 2 * (strncmp(a, b, 6) != 0);', 3),
    ("texts that are compared", 'static const char *names[] = { "alpha", "beta", "be", "" };', 'char t[8] = "beta"; u64 n = 0; for (u64 i = 0; i < 4; i++) { n = n * 3 + (strcmp(names[i], t) > 0) + 2 * (strcmp(t, names[i]) > 0); } t[c->marks] = 200; return n * 4 + (strcmp(t, "beta") > 0) * 2 + !strcmp("be", names[c->epoch - 1]);', (2 * 27 + 0 * 9 + 2 * 3 + 2) * 4 + 3),
    ("what is found in texts and bytes", "static u8 a[300];", 'read_bytes(0, a, 300); const u8 *p = memchr(a, a[c->epoch + 200], 300); const char *t = "usr/share/doc"; char *s = strchr(t, t[c->epoch]); return (p - a) + 1000 * (s - t) + 10000 * !strchr(t, c->marks) + 20000 * (strchr(t, 0) == t + 13) + 40000 * !memchr(a, a[9], 9) + 80000 * strnlen(t, c->epoch) + 1000000 * strnlen(t, 64);', DEVICE.index(DEVICE[203]) + 3000 + 10000 + 20000 + 40000 * (DEVICE[9] not in DEVICE[:9]) + 240000 + 13000000),
    # Their answers are those of native builds by gcc.
    ("an initializer at each entry", SUM + ONCE, "return once(c->epoch) + 3 * once(c->marks) + 7 * once(1);", 10625289039637278766),
    ("large locals in the body of a loop", SUM, IN_A_LOOP, 9243815046827454156),
    ("large texts, and tables of texts", SUM, TEXTS, 13684091301127232826),
    ("initializers that aren't constant", SUM + STATES, UNKNOWN, 10851551682987158976),
    ("large structs and unions", SUM + GRID, GRIDS, 6554446712395423152),
    ("large locals of a function that is LOCAL", APART, "return apart(100, c->epoch) + 1000 * apart(600, c->marks) + 7 * apart(5, 0);", 219922),
    ("large locals by macros, and jumps past them", SUM + MACROS, JUMPS, 13486810272315842473),
    ("large locals within each other", SUM + CHAIN, "u8 first[4000] = { 9 }; first[c->epoch] = 3; u64 n = outer(c->epoch) + inner(300); return n + sum(first, 4000) + outer(5);", 13409132304966593664),
    ("many small locals beside a large one", SUM + SMALL, SMALLS, 15882483407736627049),
    ("a table of functions", FUNCTIONS + "static u64 (*const f[2])(u64) = { a, b };", "return f[c->marks](c->epoch);", 5),
    ("a table of functions of two dimensions", FUNCTIONS + "static u64 (*const f[2][2])(u64) = { { a, b }, { b, a } };", "return f[c->marks][c->epoch & 1](9) * 100 + f[0][c->marks](c->epoch);", 1005),
    ("a function by a pointer", FUNCTIONS, "u64 (*f)(u64) = c->marks ? a : b; return f(c->epoch);", 4),
    ("a pointer to a function that changes", FUNCTIONS + "static u64 (*f)(u64) = a;", "u64 n = f(10); if (c->marks) f = b; return n * 100 + (*f)(c->epoch);", 1105),
    ("functions in structs", FUNCTIONS + OPS, "return ops[c->marks].run(c->epoch) * 100 + ops[c->marks].kind + (ops[2].run == 0);", 508),
    ("functions in structs that are looked for", FUNCTIONS + OPS, "for (const struct op *o = ops; o->run; o++) if (o->kind == c->epoch + 4) return o->run(ops[0].run(20)); return 0;", 23),
    ("functions that are passed on, and come later", SUM + SORTED, "u8 x[20], y[20]; copy(0, x, 20); copy(20, y, 20); sort(x, c->epoch + 7, up); sort(y, c->marks + 9, down); return sum(x, 10) ^ sum(y, 10) << 1;", None),
    ("what printf is given", "#include <stdio.h>", 'u64 n = c->epoch; if (n == 3) printf("%llu of %llu\\n", n++, c->marks); else printf("none"); printf("end\\n"); return n;', 4),
    ("signed division", DIVIDED, DIVISIONS, 18446744073709536953),
    ("signed division by 1, and of the least number", "", "long long x = 1ll << 63; int y = -7; x += c->marks - 1; return x / (long long)c->marks + (u64)(y / (int)c->marks) * 3 + y % 2 * 1000;", 9223372036854774787),
    ("signed division by 0", "", "long long x = c->epoch - 10; return x / (long long)(c->marks - 1) * 5 + x % (long long)(c->marks - 1);", MASK - 6),
]


def fletcher():
    """Returns the Fletcher checksum of the words that the checker looks at."""
    low = high = 0
    for at in range(100):
        low = (low + int.from_bytes(DEVICE[4 * at : 4 * at + 4], "little")) % 0xFFFFFFFF
        high = (high + low) % 0xFFFFFFFF
    return (low ^ high << 32) & MASK


def of_text():
    """Returns the number that the checker makes of the long text."""
    number = 0
    for it in LONG.encode().ljust(200, b"\0"):
        number = (number * 31 + it) % 1000003
    return number


def on_stack():
    """What ON_STACK answers."""
    byte = lambda at: DEVICE[at] if at < len(DEVICE) else 0
    zero = lambda at: int(not any(DEVICE[512 * at : 512 * at + 512])) if at < SECTORS else 2
    a, b, d, e = range(4)
    for n in range(1, 10):
        e += zero(a)
        d += byte(a)
        a += zero(b)
        a = (a ^ e) + byte(b)
        if n == 5:
            b ^= a
            a = a + byte(e) ^ d
            d = d * 3 + byte(d) + 256 * byte(d + 1)
            e += byte(b + 1)
    return a + b + d + e & MASK


def sorted_bytes():
    """What SORTED makes of the first bytes: by themselves, and the next ones by the bytes at those places."""
    total = lambda given: sum(it * 31 ** (len(given) - 1 - at) for at, it in enumerate(given)) & MASK
    return total(sorted(DEVICE[:10])) ^ total(sorted(DEVICE[20:30], key=lambda it: -DEVICE[it])) << 1 & MASK


COMPUTED = {
    "functions that are passed on, and come later": sorted_bytes,
    "the same, of a variable on the stack": on_stack,
    "a long text": of_text,
    "fletcher": fletcher,
    "xxhash64": lambda: xxhash64(3, DEVICE[:199]) ^ xxhash64(0, b"") ^ xxhash64(1, DEVICE[:13]),
    "bits": lambda: bin(int.from_bytes(DEVICE[:100], "little") & ((1 << 397) - 1)).count("1") + 1000 * (DEVICE[1] & 1) + 10000 * (DEVICE[1] >> 3 & 1),
}

POINTERS = """
static u64 visit(u64 at, u64 (*f)(u64, const u8 *)) { u8 b[400]; read_bytes(at, b, 400); u64 n = f(at, b); return n * 3 + b[5]; }
static u64 leaf(u64 at, const u8 *p) { return p[1] + at; }
static u64 node(u64 at, const u8 *p) { return visit(at + 100, leaf) + p[2]; }
"""
VARIABLE = "static u64 f(int n, ...) { __builtin_va_list l; __builtin_va_start(l, n); u64 s = __builtin_va_arg(l, u64); __builtin_va_end(l); return s; }"
SLOTS = f"static u64 f(u64 n) {{ u64 s = 0; {' '.join(f's = s * u64_at(n + {at}) + u8_at(s); s ^= u32_at(s) % 7;' for at in range(32))} return s; }}"

# Each row: what is refused, the text, what is said, and more words.
REFUSED = [
    ("too much memory", "static u8 a[40000], b[40000];", "a[c->epoch] = 1; b[c->epoch] = 2; return a[1] + b[1];", "take 80000 bytes, and a program has 65536"),
    ("a call by a pointer in a function that is LOCAL", FUNCTIONS + "static u64 (*f)(u64) = a; LOCAL(check) u64 g(u64 n) { return f(n); }", "if (c->marks) f = b; return g(c->epoch) + g(4);", "is in a function that is LOCAL"),
    ("recursion", "static u64 f(u64 n) { return n ? n * f(u64_at(n)) : 1; }", "return f(c->epoch);", "cc: it.c:2: f calls itself"),
    ("recursion by another function", "static u64 g(u64 n); static u64 f(u64 n) { return n ? g(n - 1) : 1; } static u64 g(u64 n) { return n ? f(n - 1) * u64_at(n) : 0; }", "return f(c->epoch);", "f calls g, which makes a circle"),
    ("recursion with a large local", "static u64 f(u64 n, const u8 *p) { u8 b[600]; copy(n, b, 512); return n ? f(n - 1, b) : p[4]; }", "return f(c->epoch, 0);", "f calls itself"),
    ("a large local of a function that is called by a pointer from itself", POINTERS, "return visit(c->epoch, node);", "visit calls node, which makes a circle"),
    ("floating point", "", "u64 n = 0;\ndouble d = c->epoch;\n\nd *= 1.5;\nreturn d > n;", "cc: it.c:6: floating point"),
    ("a number of 128 bits", "", "unsigned __int128 x = c->epoch;\nx = (x << 64) / c->marks;\nreturn x;", "cc: it.c:6: a number of 128 bits"),
    ("variable arguments", VARIABLE, "return f(2, c->epoch, c->marks);", "cc: it.c:2: f has variable arguments"),
    ("an atomic addition", "static u64 n;", "__sync_fetch_and_add(&n, c->epoch);\nreturn n;", "cc: it.c:5: an atomic operation"),
    ("an atomic exchange", "static u64 n;", "return __sync_val_compare_and_swap(&n, 0, c->epoch);", "cc: it.c:5: an atomic operation"),
    ("too many slots", SLOTS, "return f(1) + f(2) + f(3) + f(4) + f(5) + f(6) + f(7) + f(8) + f(9) + f(10) + f(11) + f(12);", "f of it.c"),
    ("large locals without guards", "static u64 f(u64 at) { u8 b[300]; copy(at, b, 300); return b[at & 255]; }", "u8 d[400];\ncopy(7, d, 400); return f(d[c->marks]) + d[c->epoch];", "it.c:5: d of check takes 400 bytes\n    it.c:2: b of f takes 300 bytes", "--no-guards"),
    ("locals that are too large for the memory", "static u64 f(u64 at) { u8 b[40000]; read_bytes(at, b, 40000); return b[at]; }", "u8 d[30000]; read_bytes(7, d, 30000); return f(d[c->marks]) + d[c->epoch];", "take 70000 bytes, and a program has 65536"),
    ("too many first bytes", f"static u64 t[3000] = {{ {', '.join(str(it + (it << 32)) for it in range(1, 3001))} }};", "t[c->epoch] += 1; return t[c->marks];", "at most 4096"),
]


def compiled(compiler, outside, body, folder, crashbpf, *more):
    """Compiles a checker, and verifies it where there is a verifier; the call, and where its program is."""
    source, out = Path(folder) / "it.c", Path(folder) / "it.bpf"
    source.write_text(f'#include "checker.h"\n{outside}\nu64 check(const struct context *c)\n{{\n{body}\n}}\n')
    words = [sys.executable, CC, source, "check", out, "--compiler", compiler, *more]
    words += ["--sectors", str(SECTORS)] if crashbpf else []
    env = {**os.environ, "PATH": f"{crashbpf.parent}:/usr/bin:/bin" if crashbpf else "/usr/bin:/bin"}
    return subprocess.run(words, capture_output=True, text=True, env=env), out


def lengths(code):
    """The calls of `copy` whose length isn't loaded in front of them; a compiler takes a variable for it that was tested."""
    length, found = None, []
    for slot, it in sorted(decoded(code).items()):
        if it.code == MOVE_NUMBER and it.dst == 3:
            length = it.imm
        elif it.code == CALL and it.src == 0:
            found += [slot] if it.imm == COPY and length is None else []
            length = None
        elif it.dst == 3 and it.kind() in (LDX, ALU, ALU64):
            length = None
    return found


def checked(crashbpf, out, folder):
    """What the program under test says that the program ends in."""
    image = Path(folder) / "image"
    image.write_bytes(DEVICE)
    words = [crashbpf, "check", out, image, "--guards", "--epoch", "3", "--marks", "1"]
    done = subprocess.run(words, capture_output=True, text=True)
    return (done.stdout or done.stderr).splitlines()[-1]


def failing(compiler, folder, crashbpf):
    """What is wrong with a compiler's programs, a line for each."""
    for name, outside, body, answer in ROWS:
        done, out = compiled(compiler, outside, body, folder, crashbpf)
        if done.returncode:
            yield f"{compiler}: {name}: {done.stderr.strip()}"
            continue
        wanted = COMPUTED[name]() if answer is None else answer
        end = judged(out.read_bytes(), Image(), 10**6, True)
        if end.text != f"answer {wanted} codes -":
            yield f"{compiler}: {name}: {end}, not answer {wanted}"
        elif compiler == "bpf-gcc" and lengths(out.read_bytes()):
            yield f"{compiler}: {name}: a length isn't loaded in front of slot {lengths(out.read_bytes())[0]}"
        elif crashbpf and checked(crashbpf, out, folder) != end.text:
            yield f"{compiler}: {name}: check says {checked(crashbpf, out, folder)}, the model {end}"
    for name, outside, body, said, *more in REFUSED:
        done, _ = compiled(compiler, outside, body, folder, crashbpf, *more)
        foreign = [it for it in FOREIGN if it.lower() in done.stderr.lower()]
        if done.returncode != 2 or said not in done.stderr or foreign:
            yield f"{compiler}: {name}: {done.stderr.strip()[:400]}"


def main(words):
    crashbpf = Path(words[0]).resolve() if words else None
    # Two test vectors of xxHash, and one of each checksum.
    assert xxhash64(0, b"") == 0xEF46DB3751D8E999 and xxhash64(0, b"abc") == 0x44BC2CF5AD770999
    assert summed(0x82F63B78, 0xFFFFFFFF, b"123456789") ^ 0xFFFFFFFF == 0xE3069283
    assert summed(0xEDB88320, 0xFFFFFFFF, b"123456789") ^ 0xFFFFFFFF == binascii.crc32(b"123456789")
    compilers = [it for it in ("clang", "bpf-gcc") if shutil.which(it)]
    print(*(f"there is no {it}: nothing is tried with it" for it in ("clang", "bpf-gcc") if it not in compilers), sep="\n", end="\n" * (len(compilers) < 2))
    with tempfile.TemporaryDirectory() as folder:
        bad = [line for it in compilers for line in failing(it, folder, crashbpf)]
    print(*bad, f"{len(compilers) * (len(ROWS) + len(REFUSED)) - len(bad)} checks passed, {len(bad)} failed", sep="\n")
    return bool(bad)


if __name__ == "__main__":
    sys.exit(main(sys.argv[1:]))
