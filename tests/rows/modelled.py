"""Whole reports, surveys and images of many logs, compared with the model (model.py).

Each log is explored with every kind of cuts, every bound, with and without tears, by sector and by write, by three programs at once: one whose
answer is made of all sectors, one that answers epoch and marks, and one that reports codes. Runs of more than MOST images
are left out.
"""
import random
from itertools import product
from math import comb

import model
from model import Checker, Run, explored
from notation import DISCARD, FLUSH, FUA, METADATA, SECTOR, D, Entry, F, Long, M, Row, S, W, explore, files, named

MOST = 6000


def noise(seed, sectors=1):
    """Bytes of which no two sectors are alike, the same at each run."""
    return random.Random(seed).randbytes(SECTOR * sectors)


# Torn sectors over torn sectors: the rest of each comes from what lies below.
TORN_OVER_TORN = [S(0, noise(1)), S(0, noise(2)), S(0, noise(3))]

# A forced write between two that may be lost.
FORCED_BETWEEN = [S(1, noise(1, 2)), S(1, noise(2), FUA), S(2, noise(3), FUA | FLUSH), S(1, noise(4, 2))]

# Flushes with and without data, and what they make durable.
FLUSHED = [S(0, noise(1)), S(1, noise(2), FLUSH), S(0, noise(3)), F, S(1, noise(4)), S(0, noise(5), FLUSH), F, F]

# Discards, which write zeros: lost, torn, flushing, forced.
DISCARDED = [S(0, noise(1, 4)), D(1, 2), D(0, 1, FLUSH), S(1, noise(2)), D(0, 2, FUA), D(0, 4, FLUSH | FUA), D(3, 1)]

# Marks among writes, with and without flushes, and a mark with a text as long as it may be.
MARKED = [M("a"), S(0, noise(1)), M("b"), F, M("b"), S(0, noise(2)), S(1, noise(3)), M("x" * 480), M("")]

# Writes that overlap.
OVERLAPPING = [S(0, noise(1, 3)), S(1, noise(2, 3)), S(2, noise(3, 2)), S(0, noise(4))]

# Entries without sectors, and flags that change nothing.
EMPTY_ENTRIES = [
    Entry(2**64 - 1),
    Entry(7, 0, FLUSH | FUA | METADATA),
    S(0, noise(1), METADATA),
    Entry(9, 0, DISCARD),
    S(1, noise(2), METADATA | FUA),
    M("dm-log-writes-end", METADATA),
    Entry(0, 0, FUA),
]

# The first and the last sector of a device that one program looks at as a whole.
ENDS = [S(0, noise(1)), S(63, noise(2)), S(62, noise(3, 2)), W(0, 1, 0)]

# Sectors that are written with what was there.
THE_SAME = [W(0, 2, 0x55), W(0, 1, 0x55), W(1, 1, 0), W(1, 1, 0x55), D(0, 1)]

# What a file system does: data, a commit that flushes and is forced, data once more, a mark.
COMMITS = [
    entry
    for number in range(4)
    for entry in [
        S(2 + number, noise(number)),
        S(number % 2, noise(10 + number), FLUSH | FUA | METADATA),
        M(f"commit {number}"),
    ]
]

# Writes and a discard of many sectors, over one another, and an entry without sectors.
PAGED = [S(0, noise(1, 8)), S(4, noise(2, 8)), D(2, 5), S(1, noise(3, 3)), Entry(3), F, S(0, noise(4, 12)), S(5, noise(5), FUA)]

LOGS = {
    "torn_over_torn": (4, TORN_OVER_TORN),
    "forced_between": (4, FORCED_BETWEEN),
    "flushed": (2, FLUSHED),
    "discarded": (4, DISCARDED),
    "marked": (3, MARKED),
    "overlapping": (4, OVERLAPPING),
    "empty_entries": (2, EMPTY_ENTRIES),
    "ends": (64, ENDS),
    "the_same": (2, THE_SAME),
    "commits": (8, COMMITS),
    "paged": (12, PAGED),
}

PROGRAMS = [named("whole_image"), named("epoch_and_marks"), named("sectors_0_and_1")]
CHECKERS = [
    Checker("slots 15 budget 780", model.whole_image),
    Checker("slots 5 budget 5", model.epoch_and_marks),
    Checker("slots 20 budget 20", model.sectors_0_and_1),
]


def count(run):
    """How many images a run has."""
    fates = 15 if run.tears else 1
    volatile = [len(run.volatile(cut)) for cut in run.wanted_cuts()]
    return sum(comb(units, picked) * fates**picked for units in volatile for picked in range(run.bound + 1))


def runs():
    """All runs of the logs that aren't too long, by name."""
    for name, (sectors, entries) in LOGS.items():
        for cuts, bound, tears, by in product(["all", "flush", "mark"], range(4), [False, True], ["sector", "write"]):
            run = Run(entries, sectors, cuts, bound, tears, by)
            if count(run) <= MOST:
                words = " tears" if tears else ""
                yield f"{name} {cuts} {bound}{words}{' by write' if by == 'write' else ''}", run


def narrowed():
    """Runs with flushes that are added, and with ranges of cuts, by name."""
    some = [dict(flush=(0,)), dict(flush=(2, 1, 2)), dict(flush=(3,), first=1, last=4), dict(first=2), dict(last=3), dict(first=3, last=3)]
    for name, (sectors, entries) in LOGS.items():
        for more, cuts, by in product(some, ["all", "flush", "mark"], ["sector", "write"]):
            named = [*more.get("flush", ()), more.get("first", 0) - 1, more.get("last", 0) - 1]
            run = Run(entries, sectors, cuts, 1, True, by, **more)
            if max(named) < len(entries) and count(run) <= MOST:
                yield f"{name} {run.options()}", run


def modelled(name, run):
    """The report, the report of the first failing image, and the survey of a run."""
    entries, options = run.recorded, run.options()
    status = 1 if count(run) else 0
    return [
        explore(f"model: {name}", options, entries, PROGRAMS, Long(lambda: explored(run, CHECKERS)), status),
        explore(
            f"model: {name}, first",
            f"{options} --first",
            entries,
            PROGRAMS[:2],
            Long(lambda: explored(run, CHECKERS[:2], first=True)),
            1 if any_fails(run) else 0,
        ),
        Row(f"model: {name}, images", f"images log {options}", files(entries), Long(run.survey)),
    ]


def any_fails(run):
    """Whether one of the first two programs fails on an image: on all but those of zeros without epoch and marks."""
    return any(checker.judge(image)[0] for image in run.images() for checker in CHECKERS[:2])


def shown(name, run, numbers):
    """The bytes of images."""
    images = list(run.images())
    return [
        Row(
            f"model: {name}, image {number}",
            f"image log {number} {run.options()}",
            files(run.recorded),
            images[number].content(),
        )
        for number in numbers
    ]


TORN = Run(TORN_OVER_TORN, 4, "flush", 3, True)
LOST = Run(DISCARDED, 4, "all", 2, False)
WIDE = Run(ENDS, 64, "flush", 2, True)
PAGES = Run(PAGED, 12, "all", 2, True, "write")

ROWS = [
    *(row for name, run in runs() for row in modelled(name, run)),
    *(row for name, run in list(narrowed())[::6] for row in modelled(name, run)),
    *shown("torn_over_torn", TORN, [0, 1, 2, 9, 15, 45, 46, 47, 54, 151, 720, 721, 959, 1687, 2409, 3000, 3968, 4094, 4095]),
    *shown("discarded", LOST, range(count(LOST))),
    *shown("ends", WIDE, [0, 1, 30, count(WIDE) - 1]),
    *shown("paged by write", PAGES, range(0, count(PAGES), 29)),
]
