"""Runs by many workers, with and without a cache: the same bytes for any of them.

Each run is made by every number of workers with every size of the cache, and the report is the model's, or that of the
worked example. One run fails in its last block alone, one only after many blocks, and two end in time only by the cache.
Runs that say how far they are say nothing else otherwise.
"""
import functools
from dataclasses import replace

import model
from model import Checker, Run, explored
from notation import F, M, W, Long, Row, explore, named, program
from rows import worked
from rows.modelled import CHECKERS, LOGS, PROGRAMS

WORKERS = [1, 2, 4, 64]
CACHES = [0, 1, 16, 65536]


def each_way(row):
    """A row with every number of workers and every size of the cache."""
    return [
        Row(
            f"{row.name}, {workers} workers, cache {cache}",
            f"{row.words} --workers {workers} --cache {cache}",
            row.files,
            row.out,
            row.status,
            row.error,
            seconds=row.seconds,
        )
        for workers in WORKERS
        for cache in CACHES
    ]


# The worked examples that judge more than one block, more than one program, or equal images.
EXAMPLES = [
    "empty_log_good",
    "empty_log_good, first",
    "empty_log_bad",
    "torn_sector",
    "torn_sector, first",
    "torn_sector, tails alone",
    "torn_sector, tails alone, first",
    "a torn discard",
    "overwritten_sector, byte_64",
    "forced_write",
    "discard",
    "marks",
    "nested_loops, within 28 steps",
    "sixteen_codes",
    "sixteen_codes, first",
]


def run_of(name, run, programs, checkers, first=False):
    """A row of a run by the model; an image fails."""
    options = f"{run.options()} --first" if first else run.options()
    report = functools.lru_cache(maxsize=None)(lambda: explored(run, checkers, first))
    return explore(f"workers: {name}", options, run.entries, programs, Long(report), 1)


def from_epoch(least):
    """A program that answers 1 from that epoch on, and else 0."""
    text = f"ldxdw r1, [r1+8]; mov64 r0, 0; jlt r1, {least}, +1; mov64 r0, 1; exit"
    return program(text), Checker("slots 5 budget 5", lambda image: (1 if image.epoch() >= least else 0, ()))


# 421 images in seven blocks; those of one epoch are equal.
FLUSHES = Run([entry for number in range(140) for entry in [F, W(0, 1, 0)]], 1)
LAST_BLOCK, LAST_CHECKER = from_epoch(140)
THIRD_BLOCK, THIRD_CHECKER = from_epoch(50)

# 321 images that only the marks tell apart, in five blocks.
MARKS = Run([M("m") if number % 8 == 0 else W(0, 1, 0x55) for number in range(320)], 1, bound=0)

OVERLAPPING = Run(LOGS["overlapping"][1], 4, "flush", 2, True)
COMMITS = Run(LOGS["commits"][1], 8, "all", 1, True)

EIGHT = [named("first_byte"), named("byte_64")] * 4
EIGHT_CHECKERS = [Checker("slots 7 budget 5", model.first_byte), Checker("slots 7 budget 5", model.byte_64)] * 4

RUNS = [
    run_of("a failing block at the end", FLUSHES, LAST_BLOCK, [LAST_CHECKER]),
    run_of("a failing block at the end, first", FLUSHES, LAST_BLOCK, [LAST_CHECKER], first=True),
    run_of("many failing blocks", FLUSHES, THIRD_BLOCK, [THIRD_CHECKER]),
    run_of("many failing blocks, first", FLUSHES, THIRD_BLOCK, [THIRD_CHECKER], first=True),
    run_of("marks", MARKS, named("epoch_and_marks"), CHECKERS[1:2]),
    run_of("overlapping", OVERLAPPING, PROGRAMS, CHECKERS),
    run_of("commits, eight programs", COMMITS, EIGHT, EIGHT_CHECKERS),
    run_of("commits, eight programs, first", COMMITS, EIGHT, EIGHT_CHECKERS, first=True),
]

# Runs that say how far they are, by the number of their images.
PROGRESS = {
    "torn_sector": 17,
    "torn_sector, first": 17,
    "sixteen_codes": 256,
    "sixteen_codes, first": 256,
}


def with_progress(row, images):
    """A row of which all but the line of progress is as ever, by one worker and by four."""
    return [
        replace(
            row,
            name=f"{row.name}, {workers} workers, with progress",
            words=f"{row.words} --workers {workers} --progress",
            images=images,
        )
        for workers in [1, 4]
    ]


def worked_row(name):
    """The worked example of that name."""
    return next(it for it in worked.ROWS if it.name == name)

# 8,128 images, all alike: every write is of zeros. The program takes some four million steps on each, so a run that judges
# more than a few of them takes minutes.
ALIKE = Run([W(0, 1, 0)] * 126, 1)
MANY_TURNS = program("mov64 r1, 1048576; call 3; jeq r0, 0, +1; ja -4; exit")
TURNS_CHECKER = Checker(f"slots 5 budget {(1 + 1_048_576) * 5}", lambda image: (0, ()))


def judged_once(workers):
    """A run of equal images. It ends in time only where verdicts are put into the cache, and it is asked for them."""
    report = functools.lru_cache(maxsize=None)(lambda: explored(ALIKE, [TURNS_CHECKER], False))
    options = f"{ALIKE.options()} --workers {workers} --cache 65536"
    return explore(f"workers: equal images, {workers} workers", options, ALIKE.entries, MANY_TURNS, Long(report), 0)


ROWS = [
    *map(judged_once, [1, 4]),
    *(row for name in EXAMPLES for row in each_way(worked_row(name))),
    *(row for run in RUNS for row in each_way(run)),
    *(row for name, images in PROGRESS.items() for row in with_progress(worked_row(name), images)),
    *(row for run in RUNS[:2] for row in with_progress(run, 421)),
]
