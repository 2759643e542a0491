#!/usr/bin/env python3
"""Tests commands/cc/crashbpf-cc with the compilers at hand. The gate doesn't run it, since it needs one.

    python3 tests/by_hand/cc.py [--compiler NAME].. [PROGRAM]

PROGRAM is as in run.py, and NAME is clang where none is given. With clang 14.0.6 each file of examples/ that was made of C
is compiled again, and its bytes are compared with the stored ones. Then each refusal of the tool is seen: its status, and
its first line. Then programs with plain loops run, and answer where their turns are spent and where they aren't. Prints a
line for each that failed, and last `N passed, M failed`. What needs no compiler is in cc_faults.py.
"""
import argparse
import os
import random
import re
import subprocess
import sys
import tempfile
from pathlib import Path

sys.dont_write_bytecode = True

import rooms

rooms.enter()

from cc_faults import changed, looked_at
from notation import SECTOR, TOP, S, log

from commands.cc.compilers import compiler as compiler_of
from commands.cc.program import NoProgram, Object
from commands.cc.work import Work

CC = TOP / "commands/cc/crashbpf-cc"
STORED_BY = "14.0.6"
# How many object files are cut off, and how many are changed; and of how many the listing is read.
CUT, CHANGED, LISTED = 300, 1000, 50
SECONDS = 60


def cc(compiler, *words, program=None):
    """Runs the tool, in whose path no other crashbpf stands than this one."""
    path = [it for it in os.environ["PATH"].split(os.pathsep) if not Path(it, "crashbpf").exists()]
    path = os.pathsep.join([str(program.parent), *path] if program else path)
    words = [CC, *map(str, words), "--compiler", compiler]
    return subprocess.run(words, capture_output=True, text=True, cwd=TOP, env={**os.environ, "PATH": path})


def stored():
    """The sources, functions and stored bytes."""
    for folder in ["two_slots", "tree", "double_write"]:
        yield f"examples/{folder}/checker.c", "check", TOP / f"examples/{folder}/checker_c.bpf"
    yield TOP / "examples/tree/root.c", "check", TOP / "examples/tree/root.bpf"
    for path in sorted((TOP / "examples/checkers").glob("*.c")):
        yield path, "check", path.with_suffix(".bpf")
    for path in sorted((TOP / "examples/recording").glob("*.c")):
        yield path, "check", path.with_suffix(".bpf")
    yield TOP / "examples/refused/not_inlined.c", "not_inlined", TOP / "examples/refused/not_inlined.bpf"
    refused = TOP / "examples/refused/refused.c"
    for name in re.findall(r"^u64 (\w+)\(const struct context", refused.read_text(), re.M):
        yield refused, name, refused.with_name(f"{name}.bpf")


SOURCE = """\
#include "checker.h"
static const u8 *const table = (const u8 *)"\1\4\2M";
int counter;
extern u64 outside(u64);
static u64 down(u64 n) { return n ? n * down(u64_at(n)) : 1; }
u64 calls(const struct context *c) { return down(c->sectors) + down(c->epoch); }
u64 tabled(const struct context *c) { return table[c->marks & 3]; }
u64 counts(const struct context *c) { return counter++; }
u64 absent(const struct context *c) { return outside(c->marks); } u64 summed(const struct context *c) { return crc32_at(0, 0, c->marks); }
__attribute__((section("mine"))) u64 first(const struct context *c) { return c->marks; }
__attribute__((section("mine"))) u64 second(const struct context *c) { return c->epoch; }
LOCAL(looped) u64 sum(u64 n) { u64 sum = 0; while (u64_at(n) > sum) sum += u64_at(sum); return sum; }
u64 looped(const struct context *c) { return sum(1) + sum(2); }
static u64 more(u64 n) { u64 sum = 0; while (u64_at(n) > sum) sum += u64_at(sum); return sum; }
LOCAL(deep) u64 inner(u64 n) { return more(n) + 1; }
u64 deep(const struct context *c) { return inner(1) + inner(2); }
static const char *word = "0123456789abcdef";
u64 text(const struct context *c) { return word[c->marks & 15]; }
static __attribute__((noinline)) u64 other(u64 n) { return n * u64_at(n); }
u64 good(const struct context *c)
{
	u64 words[4], others[4];
	memset(words, 0, sizeof words);
	memcpy(others, words, sizeof others);
	printf("%d", 5);
	return other(c->marks) + memcmp(SECTOR(0, return 1), "magic", 5) + (memcmp(words, others, sizeof words) != 0);
}
"""

TABLE = '#include "checker.h"\nstatic const u16 bits[] = { 7, 40000, 3, 900, 5 };\n'
BY_POINTER = TABLE + "u64 check(const struct context *c) { return *(&bits[c->marks & 3] + 1); }\n"
CALLED = "u64 check(const struct context *c) { return at(c->marks) + at(c->epoch); }\n"

INCBIN = '#include "checker.h"\nu64 check(const struct context *c) { __asm__ volatile(".byte 1, 2, 3"); return 0; }\n'
COMMON = '#include "checker.h"\n__attribute__((common)) int counter;\nu64 check(const struct context *c) { return counter; }\n'
OUTSIDE = "which lies outside of the function"

# What a program with memory says that isn't verified.
WITH_MEMORY = "cc: it has what programs have with guards alone: explore needs --guards"

# What stands in the file, the function that is asked for, and how the first line on standard error begins, where slots are `N`; and more
# words.
REFUSALS = [
    (SOURCE, "counts", f"cc: source.c:8 (slot N) needs counter, {OUTSIDE} counts", "--no-guards"),
    (SOURCE, "tabled", "cc: source.c:7 (slot N) needs .rodata", "--no-guards"),
    (SOURCE, "text", "cc: source.c:18 (slot N) needs .rodata", "--no-guards"),
    *((SOURCE, it, WITH_MEMORY) for it in ("counts", "tabled", "text")),
    (SOURCE, "summed", WITH_MEMORY),
    (SOURCE, "absent", "cc: source.c:9: outside is called, which the file hasn't"),
    (SOURCE, "first", "cc: the section mine of first holds more than this function and what is LOCAL to it"),
    (SOURCE, "looped", "cc: the loop source.c:12 is in a function that is LOCAL, and has no TURN"),
    (SOURCE, "deep", "cc: the loop source.c:14 is in a function that is LOCAL, and has no TURN"),
    (SOURCE, "nobody", "cc: source.c has no function nobody; it has: calls tabled counts absent summed first second looped deep text good"),
    (SOURCE, "more", "cc: the function more of source.c isn't compiled by itself: it is static or inline"),
    ("", "check", "cc: source.c has no function check, and no other"),
    (INCBIN, "check", ("cc: the object file can't be read: its section .text.check isn't whole", "cc: the section .text.check of check holds more")),
    (COMMON, "check", "cc: source.c:3 (slot N) needs counter, which lies outside"),
    (SOURCE + "u64 good(void) { return 0; }\n", "good", "source.c:28:5: error: "),
    (BY_POINTER, "check", "cc: source.c:3 (slot N) needs ", "--no-guards"),
    (BY_POINTER, "check", WITH_MEMORY),
    (TABLE + "LOCAL(check) u64 at(u64 n) { return bits[n]; }\n" + CALLED, "check", "cc: the table bits is indexed in a function that is LOCAL", "--no-guards"),
    (TABLE + "LOCAL(check) u64 at(u64 n) { return bits[n & 3]; }\n" + CALLED, "check", "", "--no-guards"),
    ('#include "chekcer.h"\n', "check", "source.c:1:10: fatal error: "),
    ("u64 check(", "check", "source.c:1:1: error: unknown type name 'u64'"),
    (None, "check", "cc: the file source.c can't be read"),
    (SOURCE, "good", ""),
]

# Loops that are written without a bound. Word 0 of the device says how many turns they are to make.
LOOPS = """\
#include "checker.h"
u64 check(const struct context *context)
{
	u64 sum = 0;

	for (u64 i = 0; i < u64_at(0); i++)
		sum += u64_at(8 * i);
	return sum == 77;
}
"""
INLINED = """\
#include "checker.h"
static u64 sum_of(u64 count)
{
	u64 i = 0, sum = 0;

	while (i < count)
		sum += u64_at(8 * i++);
	return sum;
}
u64 check(const struct context *context)
{
	if (sum_of(u64_at(0)) == 77)
		return 0;
	return sum_of(u64_at(0) - 1) == 99;
}
"""
NESTED = """\
#include "checker.h"
u64 check(const struct context *context)
{
	u64 sum = 0, i = 0;

	do {
		for (u64 k = 0; k < 3 + (u64_at(8) & 1); k++)
			sum += u64_at(8 * k + i);
	} while (++i < u64_at(0));
	return sum == 77;
}
"""
TABLES = """\
#include "checker.h"
enum { A, B, C };
static const u16 bits[] = { [C] = 40000, [A] = 3, 17, 900 };
static const signed char pairs[2][3] = { { 1, -2, 3 }, { 4, 5, 6 } };
u64 check(const struct context *context)
{
	static const u64 wide[] = {
		5, 0x123456789abcdef,
	};

	return bits[u64_at(0)] == 900 || pairs[u64_at(0) / 3][u64_at(0) % 3] == -2 || wide[u64_at(0) & 1] == 6;
}
"""
NULLS = """\
#include "checker.h"
u64 check(const struct context *context)
{
	const u64 *words = sector(u64_at(0)), *first = sector(0);

	return words[3] == 1 || words[9] != first[9] + 1;
}
"""
INDEX = """\
#include "checker.h"
u64 check(const struct context *context)
{
	const u8 *bytes = SECTOR(1, return 1);

	return *(bytes + 8 + u16_at(0)) == 9;
}
"""
# A compiler knows these loops: as a call of memset, and as one that goes by a table.
ZEROED = """\
#include "checker.h"
u64 check(const struct context *context)
{
	u8 bytes[64];
	u64 sum = 0;

	for (u64 i = 0; i < 64; i++)
		bytes[i] = 1;
	for (u64 i = 0; i < (u64_at(0) & 63); i++)
		bytes[i] = 0;
	for (u64 i = 0; i < 64; i++)
		sum += bytes[i];
	return sum != 59;
}
"""
SUMMED = """\
#include "checker.h"
u64 check(const struct context *context)
{
	u32 sum = ~0u;

	for (u64 i = 0; i < 9; i++) {
		sum ^= u8_at(i);
		for (int k = 0; k < 8; k++)
			sum = sum & 1 ? sum >> 1 ^ 0xedb88320 : sum >> 1;
	}
	return ~sum != 0x94f1b12e;
}
"""
EMPTY = NESTED.replace("3 + (u64_at(8) & 1)", "u64_at(8)")
HEADER = """\
#include "checker.h"
u64 check(const struct context *context)
{
	const u8 *a = SECTOR(0, return 7), *b = SECTOR(1, return 7);

	return memcmp(a + 8, b + 8, u64_at(0) & 63) != 0;
}
"""

# The code of a loop of checker.h: its line, and that of memcmp.
HEADER_CODE = 1000000 + next(
    number + 2 for number, it in enumerate((TOP / "include/checker.h").read_text().split("\n")) if "int memcmp_loop_" in it
) + 1

# A source, words of the tool, and for values of word 0 what is answered, with the codes, or the line of a stray; or how it is
# refused, as clang makes it and as gcc does. That adds the 8 of INDEX to the pointer too, since its pass `combine` is left out.
RUNS = [
    (LOOPS, [], {0: "0", 5: "0", 65536: "0", 65537: "1000000 codes 6"}),
    (LOOPS, ["--turns", "5"], {5: "0", 6: "1000000 codes 6"}),
    (LOOPS, ["--turns", "7", "--turns", "6:5"], {5: "0", 6: "1000000 codes 6"}),
    (LOOPS, ["--turns", "5", "--turns", "source.c:6:7"], {7: "0", 8: "1000000 codes 6"}),
    (INLINED, ["--turns", "5"], {5: "0", 6: "1000000 codes 6"}),
    (NESTED, ["--turns", "6"], {2: "0", 3: "1000000 codes 7"}),
    (NESTED, ["--turns", "7"], {2: "0", 3: "1000000 codes 7"}),
    (HEADER, ["--turns", "5"], {0: "0", 5: "0", 6: f"1000000 codes {HEADER_CODE}"}),
    (TABLES, ["--no-guards"], {0: "0", 1: "1 codes -", 2: "1 codes -", 3: "1000001 codes 3", 1 << 63: "1000001 codes 3"}),
    (TABLES, [], {0: "0", 1: "1 codes -", 2: "1 codes -", 1 << 60: "stray at 11"}),
    (NULLS, [], {0: "1 codes -", 63: "1 codes -", 64: "stray at 6"}),
    (INDEX, [], {0: "0", 503: "0", 504: "stray at 6", 65535: "stray at 6"}),
    (INDEX, ["--guards"], {504: "stray at 6"}),
    (INDEX, ["--no-guards"], ("refused 52 at ", "refused 54 at ")),
    (EMPTY, ["--turns", "100", "--turns", "6:5"], {5: "0", 6: "1000000 codes 6"}),
    (ZEROED, [], {4: "1 codes -", 5: "0", 69: "0"}),
    (SUMMED, [], {0: "1 codes -", int.from_bytes(b"12345678", "little"): "0"}),
]


def stored_bytes(compiler, folder):
    """The names of stored files that the compiler makes otherwise."""
    for source, function, path in stored():
        # Those of whole formats have plain loops.
        words = [] if path.with_suffix("").is_dir() else ["--turns", "0"]
        done = cc(compiler, source, function, folder / "out.bpf", *words)
        same = done.returncode == 0 and (folder / "out.bpf").read_bytes() == path.read_bytes()
        yield None if same else f"{path.relative_to(TOP)}: other bytes {done.stderr}"


def refusals(compiler, folder):
    """What the tool said otherwise than it should."""
    source = folder / "source.c"
    for text, function, wanted, *words in REFUSALS:
        source.unlink(missing_ok=True)
        (folder / "out.bpf").unlink(missing_ok=True)
        if text is not None:
            source.write_text(text)
        done = cc(compiler, source, function, folder / "out.bpf", *words)
        said = re.sub(r"slot \d+", "slot N", done.stderr.replace(f"{folder}/", "").split("\n")[0])
        written = (folder / "out.bpf").exists()
        refused = bool(wanted) and wanted != WITH_MEMORY
        good = said.startswith(wanted) and done.returncode == (2 if refused else 0) and written != refused
        yield None if good else f"{compiler} {function}: status {done.returncode}, '{said}', wanted '{wanted}'"


def answer(program, folder, value, options):
    """What the program of the folder, run with these options, answers on a device of 64 sectors that begins with this word."""
    (folder / "log").write_bytes(log([S(0, value.to_bytes(8, "little").ljust(64 * SECTOR, b"\0"))]))
    words = [program, "explore", "log", "out.bpf", "--sectors", "64", "--bound", "0", "--from", "1", *options]
    done = subprocess.run(words, capture_output=True, text=True, cwd=folder)
    if done.returncode == 2:
        return done.stderr.split("\n")[0]
    stray = re.search(r"stray at slot (\d+)", done.stdout)
    if stray:
        lines = dict(re.findall(r"(?m)^(\d+) source.c (\d+)$", (folder / "out.lines").read_text()))
        return f"stray at {lines.get(stray[1])}"
    found = re.search(r"answer (\d+) codes (\S+) choice", done.stdout)
    return f"{found[1]} codes {found[2]}" if found else "0"


def runs(compiler, folder, program):
    """What programs with bounded loops answer otherwise than they should."""
    source = folder / "source.c"
    for number, (text, words, wanted) in enumerate(RUNS):
        source.write_text(text)
        done = cc(compiler, source, "check", folder / "out.bpf", "--sectors", "64", *words, program=program)
        if done.returncode != 0 or isinstance(wanted, tuple):
            refused = isinstance(wanted, tuple) and done.stderr.startswith(wanted["gcc" in Path(compiler).name])
            yield None if refused else f"{compiler} run {number}: wanted {wanted}, status {done.returncode} {done.stderr}"
            continue
        options = ["--guards"] * ("explore needs --guards" in done.stderr)
        found = {value: answer(program, folder, value, options) for value in wanted}
        found |= {"note": done.stderr} if "no run reaches" in done.stderr + done.stdout else {}
        yield None if found == wanted else f"{compiler} run {number}: {found}, wanted {wanted}"


def large(compiler, folder, program):
    """What is said otherwise than it should of a device that takes --large."""
    source = folder / "source.c"
    source.write_text('#include "checker.h"\nu64 check(const struct context *c) { return c->marks; }\n')
    for sectors, words, wanted in (("16384", [], ""), ("16385", [], "refused 13 at 1"), ("16385", ["--large"], ""), ("33554433", ["--large"], "refused 13 at 1")):
        done = cc(compiler, source, "check", folder / "out.bpf", "--sectors", sectors, *words, program=program)
        good = done.returncode == (2 if wanted else 0) and done.stderr.startswith(wanted)
        yield None if good else f"{compiler} with {sectors} sectors {words}: status {done.returncode} {done.stderr}"


def odd_objects(compiler, folder):
    """What isn't read or refused, of a real object file that is cut off or changed."""
    found, path, rng = compiler_of(compiler, Work(SECONDS).run), folder / "odd.o", random.Random(compiler)
    text = found.preprocess(TOP / "examples/tree/checker.c", []).stdout
    found.compile(text, [], path)
    whole = path.read_bytes()
    some = [whole[: rng.randrange(len(whole))] for _ in range(CUT)] + [changed(whole, rng) for _ in range(CHANGED)]
    for number, it in enumerate(some):
        try:
            looked_at(it)
            if number % (len(some) // LISTED) == 0:
                path.write_bytes(it)
                object_ = Object(it)
                function = object_.function("check")
                found.lines(path, object_, function.section if function else 1)
        except NoProgram:
            pass
        except Exception as error:
            (folder / "odd.bad").write_bytes(it)
            yield f"{compiler} odd object {number}: {error!r}"
            return
    yield None


def version(compiler):
    return subprocess.run([compiler, "--version"], capture_output=True, text=True).stdout.split("\n")[0]


def found_by(compiler, folder, program):
    """Yields what is wrong with what a compiler makes, each with its name."""
    if f"version {STORED_BY}" in version(compiler):
        yield from stored_bytes(compiler, folder)
    else:
        print(f"{compiler} isn't clang {STORED_BY}, so the stored bytes aren't compared")
    yield from refusals(compiler, folder)
    yield from odd_objects(compiler, folder)
    if program.exists():
        yield from runs(compiler, folder, program)
        yield from large(compiler, folder, program)
    else:
        print(f"there is no program {program}, so nothing runs")


def main():
    parser = argparse.ArgumentParser()
    parser.add_argument("--compiler", action="append")
    parser.add_argument("program", nargs="?", default=TOP / "crates/crashbpf/out/crashbpf", type=Path)
    asked = parser.parse_args()
    with tempfile.TemporaryDirectory() as name:
        compilers = asked.compiler or ["clang"]
        found = [it for compiler in compilers for it in found_by(compiler, Path(name), asked.program.resolve())]
    wrong = [it for it in found if it]
    for line in wrong:
        print("FAILED", line)
    print(f"{len(found) - len(wrong)} passed, {len(wrong)} failed")
    return 1 if wrong else 0


if __name__ == "__main__":
    sys.exit(main())
