#!/usr/bin/env python3
"""Gives the built programs too little: each allocation refused in turn, little room, no threads, a small stack.

    python3 tests/gate/memory.py [PROGRAM [CALLS]]
    python3 tests/gate/memory.py --counts [PROGRAM [CALLS]]

The second form prints how many allocations each row makes and how it is refused, as the lines of ROWS and CALLS.

PROGRAM is as in run.py. CALLS is tests/crates/aside without a sanitizer, as tools/outside.py keeps it, and is built so where it isn't
given, which takes some minutes. A C compiler (`cc`, `gcc` or `clang`)
builds `refuse.c` beside this script, which is loaded before the program. It makes all runs of a row from one process, so
that thousands of them take seconds; rows are made side by side, one a processor.

ROWS are rows of run.py, by name. Each is run with its Nth allocation refused, for N = 1, 2, .. until a run asks for fewer
than N; and then with all from the Nth on refused. A run either answers what the row says, byte by byte, with notes left
out or not, or it is refused for want of memory: nothing on standard output, or of `export` the first bytes of its text,
status 2, and one line on standard error. A row says how many allocations its run makes, so that a new one is noticed, and
the refusals as they come with rising N where one is refused: `72 11` stands for some that are `refused 72 at 0` and then
some that are `refused 11 at 0`, `26.0` for `refused 26 at 0 of program 0`, and a dot for right answers. Where all from the
Nth on are refused each refusal has to be one of these. Where workers side by side make both vary, the number is None, and
the refusals come in any order; and of a run with more than MOST allocations each STEPth is refused, and all from it on.

`CALLS calls` makes public calls by themselves, those too that the program doesn't make, and makes each again that is refused for
want of memory. Its allocations are refused one by one in the same way: it has to print what it always prints.

Then each run of LARGE, in which every image fails, is given no more room than twice its report, its log, and 64 MiB,
as the system counts a process's addresses (`ulimit -v`): it has to print the same report as without that limit, whose last
line is known. So is a run on a log of 62 MiB over a base of 8 MiB, with room for each of them once. Runs by many workers have to print the same bytes where no thread can be started, as a user who may have no
more processes, and in a room in which no thread's stack finds a place; and where there is room for some of them alone, the
same bytes or a refusal for want of memory. And a run by one worker has to end within STACK KiB of stack, and `check` within STACK_OF_CHECK, where the words and
the surroundings take little of it.
What is printed is as in run.py: a line for each row that failed, and last `N passed, M failed`.
"""
# These calls never answer that memory ran out: all of `lanes`, `helpers`, `intervals` and `ranges`, and all of `choices` but
# `Starts::new`; the calls of a `Plan` after it was made (`epochs`), `History::view`, `View::context` (`images`), `Input::new`
# (`workers`), `Options::new` (`request`), `Jobs::new` (`explore_core`); `check_table` (`verifier`), `run_checked` (`interp`),
# `Checker::judge` (`checker`), `Shard::look`, `Shard::hits` (`verdict_cache`), and the calls of a `Board` after it was made (`shares`).
import filecmp
import json
import os
import re
import resource
import shutil
import subprocess
import sys
import tempfile
from concurrent.futures import ThreadPoolExecutor
from dataclasses import dataclass
from math import comb
from pathlib import Path

sys.dont_write_bytecode = True

import rooms

rooms.enter()

from model import Checker, Run, explored, one
from notation import SECONDS, SECTOR, TESTS, TOP, F, Long, W, explore, log, named, program
from rows import all_rows
from running import Assembler, made, put, shortened, split_notes, split_progress

WANT_OF_MEMORY = re.compile(rb"refused (11|26|35|60|66|72) at 0(?: of program ([0-7]))?\n")

# Of runs with more allocations than MOST each STEPth is refused.
MOST = 1200
STEP = 7

# The stack of a run by one worker, and of `check`, in KiB.
STACK = 128
STACK_OF_CHECK = 192

# The notes after want of memory for the work, the second of them in a run by several workers alone.
NO_MEMORY = b"note: there is no memory for the work\n"
FEWER_WORKERS = b"note: fewer workers take less memory, and --workers 1 the least\n"

# How runs by workers side by side are refused.
MANY = ". 11 26.0 60.0 72"

ROWS = {
    "no word at all: the stored run": (48, "72 . 72 26.0 72 ."),
    "empty_log_bad": (358, "72 . 72 11 72 26.0 72 26.0 72 60.0 72 ."),
    "empty_log_bad, first": (362, "72 . 72 11 72 26.0 72 26.0 72 60.0 72 ."),
    "torn_sector": (376, "72 . 72 11 72 26.0 72 11 72 26.0 72 60.0 72 . 72 ."),
    "torn_sector, first": (380, "72 . 72 11 72 26.0 72 11 72 26.0 72 60.0 72 . 72 ."),
    "torn_sector, within 9 steps": (381, "72 . 72 11 72 26.0 72 11 72 26.0 72 . 72 ."),
    "pairs_of_drops": (293, "72 . 72 11 72 11 72 ."),
    "pairs_of_drops, each choice": (461, "72 . 72 11 72 26.0 72 11 72 26.0 72 60.0 72 . 72 . 72 . 72 . 72 . 72 ."),
    "sixteen_codes": (465, "72 . 72 11 72 26.0 72 11 72 26.0 72 60.0 72 . 72 . 72 . 72 . 72 . 72 ."),
    "sixteen_codes, first": (411, "72 . 72 11 72 26.0 72 11 72 26.0 72 60.0 72 . 72 . 72 ."),
    "eight programs": (555, "72 . 72 11 72 26.0 26.1 26.2 26.3 72 26.4 26.5 26.6 26.7 72 26.0 72 26.1 26.2 26.3 26.4 72 26.5 26.6 26.7 60.0 72 60.1 60.2 60.3 60.4 72 60.5 60.6 60.7 72 . 72 ."),
    "torn_sector, 2 workers, cache 16": (None, MANY),
    "marks, 2 workers, cache 16": (None, MANY),
    "sixteen_codes, 2 workers, cache 16": (None, MANY),
    "sixteen_codes, 4 workers, with progress": (None, MANY),
    "two_epochs": (280, "72 . 72 11 72 11 72 ."),
    "a mark after a write": (275, "72 . 72 11 72 11 72 ."),
    "two_epochs, image 20": (274, "72 . 72 11 72 11 72 ."),
    "overwritten_sector, bound 1, image 34": (285, "72 . 72 11 72 11 72 ."),
    "two_slots, wrong, survey": (291, "72 . 72 11 72 11 72 ."),
    "export: run 2": (341, "72 . 72 11 72 11 72 ."),
    "journal, image 17": (285, "72 . 72 11 72 11 72 ."),
    "journal/wrong, image 17 in words": (302, "72 . 72 11 72 11 72 ."),
    "pages/wrong, --cut 10 --choice 8:drop in words": (333, "72 . 72 11 72 11 72 ."),
    "image: a tear without --tears": (287, "72 . 72 11 72 11 72 ."),
    "why: two_slots/wrong": (489, "72 . 72 11 72 26.0 72 11 72 26.0 72 60.0 72 . 72 . 72 . 72 . 72 . 72 ."),
    "why: journal/wrong": (442, "72 . 72 11 72 26.0 72 11 72 26.0 72 60.0 72 . 72 ."),
    "why: journal, wrong, two lost or torn, by 4 workers": (None, MANY),
    "cure: two_slots, wrong": (446, "72 . 72 11 72 26.0 72 11 72 26.0 72 60.0 72 . 72 ."),
    "cure: journal, wrong": (468, "72 . 72 11 72 26.0 72 11 72 26.0 72 60.0 72 . 72 . 72 ."),
    "cure: two_slots, wrong, 4 workers, with progress": (None, MANY),
    "page: journal/wrong": (535, "72 . 72 11 72 26.0 72 11 72 26.0 72 60.0 72 . 72 ."),
    "page: markup in a mark": (647, "72 . 72 11 72 26.0 26.1 72 11 72 26.0 72 26.1 60.0 72 60.1 72 . 72 . 72 . 72 ."),
    "asm report_codes, with labels": (253, "72 . 72 35 72 35 72 ."),
    "asm masked_index": (255, "72 . 72 35 72 35 72 ."),
    "two_slots/checker, assembled": (265, "72 . 72 35 72 35 72 ."),
    "text: 'ja x\\nlddw r0, 0\\nx:\\nexit'": (242, "72 . 72 35 72 35 72 ."),
    "list": (241, "72 . 72 26 72 26 72 ."),
    "list masked_index": (250, "72 . 72 26 72 26 72 ."),
    "asm and list: every instruction in one program": (260, "72 . 72 26 72 26 72 ."),
    "verify first_byte": (279, "72 . 72 26 72 26 60 72 ."),
    "verify byte_64": (279, "72 . 72 26 72 26 60 72 ."),
    "verify ends_agree": (281, "72 . 72 26 72 26 60 72 ."),
    "verify marks_passed": (277, "72 . 72 26 72 26 60 72 ."),
    "verify report_codes": (281, "72 . 72 26 72 26 60 72 ."),
    "verify sum_words": (283, "72 . 72 26 72 26 60 72 ."),
    "verify nested_loops": (281, "72 . 72 26 72 26 60 72 ."),
    "verify masked_index": (283, "72 . 72 26 72 26 60 72 ."),
    "verify two_slots/checker_c": (285, "72 . 72 26 72 26 60 72 ."),
    "verify journal/checker": (285, "72 . 72 26 72 26 60 72 ."),
    "verify checkers/type_counts": (285, "72 . 72 26 72 26 60 72 ."),
    "verify checkers/journal_scan": (285, "72 . 72 26 72 26 60 72 ."),
    "check: first_byte, step by step": (290, "72 . 72 26 72 26 60 72 ."),
    "check: turns": (270, "72 . 72 26 72 26 72 ."),
    "check: accepted without guards": (282, "72 . 72 26 72 26 60 72 ."),
    "own memory: check, a store and a load": (282, "72 . 72 26 72 26 60 72 ."),
    "own memory: begins with zeros, two programs": (469, "72 . 72 11 72 26.0 26.1 26.2 72 11 72 26.0 72 26.1 26.2 60.0 72 60.1 60.2 72 ."),
    "own memory: begins with zeros, six places --workers 4 --cache 64": (None, MANY),
    "own memory: cases": (673, "72 . 72 11 72 26.0 26.1 26.2 26.3 72 11 72 26.0 72 26.1 26.2 26.3 60.0 72 60.1 60.2 60.3 72 ."),
    "own memory: cure": (602, "72 . 72 11 72 26.0 26.1 26.2 26.3 72 11 72 26.0 72 26.1 26.2 26.3 60.0 72 60.1 60.2 60.3 72 . 72 . 72 ."),
    "every image of sixteen writes fails, 16 workers": (None, MANY),
    "cases: tree, wrong, root, --sectors 8 --cuts all --bound any": (444, "72 . 72 11 72 26.0 72 11 72 26.0 72 60.0 72 ."),
    "cases: tree, wrong, root, first, --sectors 8 --cuts all --bound any --first": (382, "72 . 72 11 72 26.0 72 11 72 26.0 72 60.0 72 ."),
    "cases: tree, right, root, first, --sectors 8 --cuts all --bound any --first": (451, "72 . 72 11 72 26.0 72 11 72 26.0 72 60.0 72 ."),
    "image any: tree/wrong, case 0, cut 4 and choice 1.0:drop, --sectors 8 --cuts all --bound any": (319, "72 . 72 11 72 11 72 ."),
    "show any: tree/wrong, case 0, cut 4 and choice 1.0:drop, --sectors 8 --cuts all --bound any": (325, "72 . 72 11 72 11 72 ."),
    "cases: flushed, --sectors 2 --cuts all --bound any --at-most 1 --by write": (720, "72 . 72 11 72 26.0 26.1 26.2 72 11 72 26.0 72 26.1 26.2 60.0 72 60.1 60.2 72 ."),
    "a part: two_slots: --sectors 4 --cuts all --bound 2 --tears --images 236..354": (434, "72 . 72 11 72 26.0 72 11 72 26.0 72 60.0 72 . 72 . 72 . 72 ."),
    "joined in the midst: torn_over_torn --sectors 4 --cuts all --bound 1 --tears": (807, "72 . 72 66 72 66 ."),
    "joined in steps: torn_over_torn --sectors 4 --cuts all --bound 1 --tears": (1211, "72 66 ."),
    "cases joined, run 6 in 3 parts: pages/wrong, --bound any": (352, "72 . 72 66 72 66 ."),
    "cases not joined: too many cases": (339, "72 . 72 66 72 66 ."),
}

# A run by sixteen workers, which all have blocks of images to judge: 3,213 images in 51 blocks.
SIXTEEN = Run([W(place, 1, place) for place in range(16)], sectors=16, bound=3)
EXTRA = [
    explore(
        "every image of sixteen writes fails, 16 workers",
        f"{SIXTEEN.options()} --workers 16",
        SIXTEEN.entries,
        program("mov64 r0, 1; exit"),
        Long(lambda: explored(SIXTEEN, [Checker("slots 2 budget 2", one)])),
        1,
    )
]

# How many allocations the calls by themselves make: as many in a build that was proved and compiled with -O2.
CALLS = 579

# Runs with some 600,000 lines and more. Of n writes in one epoch, of which up to three are lost, there are as many images as
# ways to pick them, over all cuts.

ROOM = 64 << 20


def writes(count):
    return [W(place % 64, 1, place % 251) for place in range(count)]


def images(count):
    """How many images there are of that many writes in one epoch with the bound 3."""
    return sum(comb(cut, lost) for cut in range(count + 1) for lost in range(4))


ONE = program("mov64 r0, 1; exit")

# name: entries, programs, options, number of images
LARGE = {
    "an answer": (writes(64), [ONE], "--bound 3", images(64)),
    "sixteen codes": (writes(64), [named("report_codes")], "--bound 3", images(64)),
    "a fault": (writes(64), [program("exit")], "--bound 3 --checked 9", images(64)),
    "out of steps": (writes(64), [ONE], "--bound 3 --checked 1", images(64)),
    "eight programs": (writes(36), [ONE] * 8, "--bound 3", images(36)),
    "no departures": ([F] * 30000, [ONE] * 8, "--bound 0", 30001),
}


def run_within(program, words, folder, out, room):
    """The status of a run that may have that many bytes of addresses, or as many as it likes where that is None."""
    limit = "unlimited" if room is None else str(room >> 10)
    with open(Path(folder, out), "wb") as printed:
        return subprocess.run(
            ["sh", "-c", 'ulimit -v "$0"; exec "$@"', limit, program, *words],
            cwd=folder,
            stdin=subprocess.DEVNULL,
            stdout=printed,
            stderr=subprocess.DEVNULL,
            timeout=10 * SECONDS,
        ).returncode


def last_line(path):
    with open(path, "rb") as text:
        text.seek(max(0, path.stat().st_size - 100))
        return text.read().split(b"\n")[-2].decode("latin-1")


def overfull(program, name, assembler):
    """What went wrong with a run in which every image fails."""
    entries, programs, options, count = LARGE[name]
    with tempfile.TemporaryDirectory() as folder:
        put(folder, "log", log(entries), assembler)
        for number, text in enumerate(programs):
            put(folder, f"p{number}", text, assembler)
        words = ["explore", "log", *(f"p{number}" for number in range(len(programs))), "--sectors", "64", *options.split()]
        status = run_within(program, words, folder, "wide", None)
        wide, narrow = Path(folder, "wide"), Path(folder, "narrow")
        wanted = f"images {count} failing {count} lines {count * len(programs)}"
        if status != 1 or last_line(wide) != wanted:
            return [f"status {status}, and the report isn't the one of {count} images"]
        room = 2 * wide.stat().st_size + Path(folder, "log").stat().st_size + ROOM
        status = run_within(program, words, folder, "narrow", room)
        if status != 1 or not filecmp.cmp(wide, narrow, shallow=False):
            return [f"status {status} within {room >> 20} MiB"]
    return []


def overheld(program, assembler):
    """What went wrong with a run that has room for its log, its base and 64 MiB."""
    sectors = 16384
    with tempfile.TemporaryDirectory() as folder:
        put(folder, "log", log([W(0, sectors - 512, byte) for byte in range(8)]), assembler)
        put(folder, "base", bytes(SECTOR * sectors), assembler)
        put(folder, "p", ONE, assembler)
        words = ["explore", "log", "p", "--sectors", str(sectors), "--base", "base", "--by", "write"]
        room = Path(folder, "log").stat().st_size + SECTOR * sectors + ROOM
        status = run_within(program, words, folder, "text", room)
        # At cut n there are an image that lacks nothing, and n that lack one write each.
        if status != 1 or last_line(Path(folder, "text")) != "images 45 failing 45 lines 45":
            return [f"status {status} within {room >> 20} MiB"]
    return []


# Of how many sectors the one write of a log is of which `export` writes each loss of two sectors or fewer: all images differ.
EXPORTED = (300, 500)

# How many bytes `export` keeps at most for a new image, and beside that for all.
KEPT, BESIDE = 64, 256 << 10


def least_room(program, words, folder):
    """The least room within which a run ends with status 0, to 64 KiB."""
    low, high = 0, ROOM
    while high - low > 64 << 10:
        middle = (low + high) // 2
        low, high = (low, middle) if run_within(program, words, folder, "small", middle) == 0 else (middle, high)
    return high


def overkept(program, sectors, assembler):
    """What went wrong with an export of images that all differ, within the room of one of them and KEPT bytes for each."""
    count = 1 + sectors + comb(sectors, 2)
    words = ["export", "log", "--sectors", str(sectors), "--from", "1", "--bound", "2"]
    with tempfile.TemporaryDirectory() as folder:
        put(folder, "log", log([W(0, sectors, 0x11)]), assembler)
        room = least_room(program, [*words, "--images", "0..1"], folder) + KEPT * count + BESIDE
        status = run_within(program, words, folder, "text", room)
        if status != 0 or not last_line(Path(folder, "text")).endswith(f"total {count} new {count}"):
            return [f"status {status} within {room} bytes, of {count} images"]
    return []


def built(folder):
    """Builds the library that refuses, and returns its path."""
    library = Path(folder, "refuse.so")
    compiler = next(filter(None, map(shutil.which, ("cc", "gcc", "clang"))), None)
    if compiler is None:
        sys.exit("there is no C compiler: one of cc, gcc and clang is needed")
    subprocess.run([compiler, "-O2", "-shared", "-fPIC", "-o", library, TESTS / "gate/refuse.c"], check=True)
    return library


@dataclass(frozen=True)
class Refused:
    """A run in which allocations were refused: the number of the first, how many it asked for, and how it ended."""

    number: int
    asked: int
    returncode: int
    stdout: bytes
    stderr: bytes


def read_runs(path):
    """The runs that the library wrote down."""
    text, at = path.read_bytes(), 0
    while at < len(text):
        end = text.index(b"\n", at)
        number, asked, status, out, error = map(int, text[at:end].split())
        at = end + 1 + out + error
        yield Refused(number, asked, os.waitstatus_to_exitcode(status), text[end + 1 : at - error], text[at - error : at])


def sweep(program, library, words, folder, first, last, step=1, onwards=False):
    """The runs with the numbers from `first` to `last`, as far as they ask for that many allocations."""
    swept = Path(folder, "swept")
    surroundings = {**os.environ, "LD_PRELOAD": str(library), "SWEEP": f"{first} {last} {step} {int(onwards)}", "SWEPT": str(swept)}
    subprocess.run(words, executable=program, cwd=folder, stdin=subprocess.DEVNULL, check=True, env=surroundings)
    runs = list(read_runs(swept))
    swept.unlink()
    return runs


def error_of(done, row):
    """Standard error, of a run that says how far it is without the line that says so."""
    return done.stderr if row.images is None else split_progress(done.stderr)[1]


def is_right(done, row):
    """What the row says; notes may be left out."""
    error, _notes = split_notes(error_of(done, row))
    return (done.returncode, done.stdout, error) == (row.status, made(row.out), made(f"{row.error}\n" if row.error else ""))


def is_first_part(done, row):
    """Whether standard output may be that of a refusal: nothing, and of `export`, which writes its text as it is made, its first bytes."""
    return not done.stdout or row.words.startswith("export ") and done.stdout != made(row.out) and made(row.out).startswith(done.stdout)


def cause_of(done, row):
    """How a run ended, in short: a dot where it is right, else its refusal for want of memory, or None."""
    error, _notes = split_notes(error_of(done, row))
    refusal = WANT_OF_MEMORY.fullmatch(error)
    if refusal and done.returncode == 2 and is_first_part(done, row):
        return ".".join(part.decode() for part in refusal.groups() if part)
    return "." if is_right(done, row) else None


def in_short(causes):
    """Causes in a row, those that follow their like left out."""
    return [cause for place, cause in enumerate(causes) if place == 0 or causes[place - 1] != cause]


def broken(runs, row):
    """Sentences on the runs that are neither right nor refused for want of memory."""
    return [
        f"allocation {done.number}: status {done.returncode}, standard error '{shortened(done.stderr)}'"
        for done in runs
        if cause_of(done, row) is None
    ]


def row_runs(program, library, row, folder):
    """The run of a row in which nothing is refused, those in which one allocation is, and those in which all from one on."""
    words = ["crashbpf", *row.word_list()]
    whole = sweep(program, library, words, folder, 0, 0)[0]
    step = STEP if whole.asked > MOST else 1
    last = 2 * whole.asked + 100
    each = sweep(program, library, words, folder, 1, last, step)
    return whole, each, sweep(program, library, words, folder, 1, last, step, onwards=True)


def causes_in_short(each, row, varies):
    """How the runs are refused, as a row of ROWS has it."""
    causes = [cause_of(done, row) or "?" for done in each]
    return " ".join(sorted(set(causes)) if varies else in_short(causes))


def swept(program, library, row, wanted, assembler):
    """What went wrong with a row."""
    count, causes = wanted
    with tempfile.TemporaryDirectory() as folder:
        put_files(row, folder, assembler)
        whole, each, onwards = row_runs(program, library, row, folder)
    found = [] if is_right(whole, row) else ["it isn't right where nothing is refused"]
    if count not in (None, whole.asked):
        found.append(f"{whole.asked} allocations, {count} were wanted")
    found += broken(each, row) + broken(onwards, row)
    told = causes_in_short(each, row, count is None)
    unknown = set(told.split()) - set(causes.split()) if count is None else told != causes
    if unknown:
        found.append(f"refused '{told}', '{causes}' was wanted")
    others = {cause_of(done, row) for done in onwards} - {*causes.split(), None}
    if others:
        found.append(f"with all from one on refused also {', '.join(sorted(others))}")
    if re.search(r"--workers (?!1\b)\d", row.words):
        said = {split_notes(error_of(done, row))[1] for done in each if cause_of(done, row) == "72"}
        if not said <= {b"", NO_MEMORY, NO_MEMORY + FEWER_WORKERS}:
            found.append("other notes after 72")
        if NO_MEMORY + FEWER_WORKERS not in said:
            found.append("no note after 72 says that fewer workers take less")
    if each[-1].asked >= each[-1].number or onwards[-1].asked >= onwards[-1].number:
        found.append("no end of the allocations")
    return found


def print_counts(program, calls, library, rows, assembler, pool):
    """Prints the lines of ROWS and CALLS, as they are to be."""

    def line(name):
        row, varies = rows[name], ROWS[name][0] is None
        with tempfile.TemporaryDirectory() as folder:
            put_files(row, folder, assembler)
            whole, each, _onwards = row_runs(program, library, row, folder)
        if not is_right(whole, row):
            return f"    {json.dumps(name)}: not right: {shortened(whole.stderr)}"
        wanted = "None, MANY" if varies else f"{whole.asked}, {json.dumps(causes_in_short(each, row, varies))}"
        return f"    {json.dumps(name)}: ({wanted}),"

    print(*pool.map(line, ROWS), sep="\n")
    with tempfile.TemporaryDirectory() as folder:
        print(f"CALLS = {sweep(calls, library, ['aside', 'calls'], folder, 0, 0)[0].asked}")


def put_files(row, folder, assembler):
    """The files of a row, in the folder it is run in."""
    for name, content in row.files.items():
        put(folder, name, content, assembler)


def swept_calls(calls, library):
    """What went wrong with the calls by themselves."""
    stored = Path(TOP, "tests/crates/aside/stdout").read_bytes().splitlines(keepends=True)
    printed = b"".join(line for line in stored if line.endswith(b" right\n"))
    with tempfile.TemporaryDirectory() as folder:
        runs = sweep(calls, library, ["aside", "calls"], folder, 0, 2 * CALLS)
    found = [] if runs[0].asked == CALLS else [f"{runs[0].asked} allocations, {CALLS} were wanted"]
    if runs[-1].asked >= runs[-1].number:
        found.append("no end of the allocations")
    return found + [
        f"allocation {done.number}: status {done.returncode}, standard error '{shortened(done.stderr)}'"
        for done in runs
        if (done.returncode, done.stdout, done.stderr) != (0, printed, b"")
    ]


# Runs by many workers of which no thread can be started, or only some: in NARROW bytes of addresses the program has room,
# and no thread's stack of THREAD bytes; in each of ROOMS there is one for some, and may be none for their work.
STARVED = ["every image of sixteen writes fails, 16 workers", "workers: many failing blocks, 64 workers, cache 16"]
THREAD = 8 << 20
NARROW = 9 << 20
ROOMS = [12 << 20, 20 << 20, 32 << 20, 64 << 20, 128 << 20]

# Runs with a small stack, and how many KiB it has.
SMALL_STACKS = {
    **dict.fromkeys(["sixteen_codes", "torn_sector", "page: markup in a mark", "verify nested_loops", "why: journal/wrong"], STACK),
    **dict.fromkeys(["check: turns", "check: accepted without guards"], STACK_OF_CHECK),
}

# The first of the users who have no process, one for each run.
LONELY = 3_000_000


def as_lonely(user):
    """Makes the process one of a user who may have no other, nor a thread."""
    resource.setrlimit(resource.RLIMIT_NPROC, (1, 1))
    if os.getuid() == 0:
        os.setgroups([])
        os.setgid(user)
        os.setuid(user)


def in_room(room):
    """The process may have that many bytes of addresses, of which each thread takes THREAD."""
    resource.setrlimit(resource.RLIMIT_STACK, (THREAD, THREAD))
    resource.setrlimit(resource.RLIMIT_AS, (room, room))


def with_stack(size):
    """The process may have that many bytes of stack."""
    resource.setrlimit(resource.RLIMIT_STACK, (size, size))


def starved_run(program, row, assembler, begin, answers):
    """What went wrong with a run of a row in a process that begins so. It ends in one of the answers, as `cause_of` has them."""
    with tempfile.TemporaryDirectory() as folder:
        os.chmod(folder, 0o755)
        copy = Path(folder, "program")
        shutil.copy(program, copy)
        os.chmod(copy, 0o755)
        put_files(row, folder, assembler)
        done = subprocess.run(
            [copy, *row.word_list()],
            cwd=folder,
            stdin=subprocess.DEVNULL,
            capture_output=True,
            timeout=SECONDS,
            preexec_fn=begin,
            env={},
        )
    return [] if cause_of(done, row) in answers else [f"status {done.returncode}, standard error '{shortened(done.stderr)}'"]


def starved(rows):
    """The runs with few processes, little room or a small stack: names, rows, what begins their process, and their answers."""
    for place, name in enumerate(STARVED):
        yield f"{name}, no further process", rows[name], lambda user=LONELY + place: as_lonely(user), ["."]
        yield f"{name}, no room for a thread", rows[name], lambda: in_room(NARROW), ["."]
        for room in ROOMS:
            yield f"{name}, in {room >> 20} MiB", rows[name], lambda room=room: in_room(room), [".", "72"]
    for name, size in SMALL_STACKS.items():
        yield f"{name}, with {size} KiB of stack", rows[name], lambda size=size: with_stack(size << 10), ["."]


def built_program(words):
    """The path of the program: the first word, or where `rt run` leaves it."""
    path = str(Path(words[0] if words else TOP / "crates/crashbpf/out/crashbpf").resolve())
    if not os.access(path, os.X_OK):
        sys.exit(f"there is no program {path}: `rt run` in crates/crashbpf builds it")
    return path


def built_calls(folder):
    """Builds the program that makes calls by themselves, and returns its path."""
    path = str(Path(folder, "aside"))
    words = [TOP / "tools/outside.py", TOP / "tests/crates/aside", "--compare", "--keep", path]
    if subprocess.run([sys.executable, *words], stdout=subprocess.DEVNULL).returncode:
        sys.exit("tools/outside.py tests/crates/aside --compare failed")
    return path


def main(words):
    only_counts = words[:1] == ["--counts"]
    words = words[only_counts:]
    program = built_program(words)
    rows = {row.name: row for row in [*all_rows(), *EXTRA]}
    missing = [name for name in [*ROWS, *STARVED, *SMALL_STACKS] if name not in rows]
    if missing:
        sys.exit(f"no such rows: {', '.join(missing)}")
    assembler = Assembler(program)
    with tempfile.TemporaryDirectory() as folder, ThreadPoolExecutor(os.cpu_count()) as pool:
        library = built(folder)
        calls = str(Path(words[1]).resolve()) if len(words) > 1 else built_calls(folder)
        if only_counts:
            print_counts(program, calls, library, rows, assembler, pool)
            return 0
        checks = {"calls by themselves with memory refused": pool.submit(swept_calls, calls, library)}
        for name in sorted(ROWS, key=lambda name: ROWS[name][0] is not None):
            checks[f"{name} with memory refused"] = pool.submit(swept, program, library, rows[name], ROWS[name], assembler)
        for name in LARGE:
            checks[f"many lines, {name}"] = pool.submit(overfull, program, name, assembler)
        checks["a log and a base held once"] = pool.submit(overheld, program, assembler)
        for sectors in EXPORTED:
            checks[f"an export of the losses of {sectors} sectors"] = pool.submit(overkept, program, sectors, assembler)
        for name, row, begin, answers in starved(rows):
            checks[name] = pool.submit(starved_run, program, row, assembler, begin, answers)
        found = {name: check.result() for name, check in checks.items()}
    for name, sentences in found.items():
        if sentences:
            more = [f"and {len(sentences) - 5} more"] if len(sentences) > 5 else []
            print(f"FAILED {name}: {'; '.join(sentences[:5] + more)}")
    failed = sum(1 for sentences in found.values() if sentences)
    print(f"{len(found) - failed} passed, {failed} failed")
    return 1 if failed else 0


if __name__ == "__main__":
    sys.exit(main(sys.argv[1:]))
