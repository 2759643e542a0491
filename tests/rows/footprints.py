"""Runs of checkers that read a few sectors of those that a cut may lose, against the model (docs/MACHINE.md, 'Footprint').

Each cut has 64 images and more, so that what a checker can't tell apart is judged once. Two writes of equal bytes over one
sector: dropping either changes nothing, and dropping both does. Checkers look by each helper, by a load, by a load at a
number, and at a sector that another one names; and one reads its context alone, at two cuts.
"""
import functools

from model import Checker, Run, explored
from notation import FUA, D, F, Long, M, W, explore, program

ZEROS = bytes(512)


def others(first, count, byte=0x11):
    """Writes that no checker here reads."""
    return [W(number, 1, byte) for number in range(first, first + count)]


def pointed(image):
    """Whether the sector that byte 0 of sector 0 names is zeros; 2 past the device."""
    number = image.sector(0)[0]
    return (2 if number >= image.run.sectors else int(image.sector(number) == ZEROS)), ()


def epoch_of_0(image):
    """By how much byte 0 of sector 0 is above the epoch."""
    return (image.sector(0)[0] - image.epoch()) % 2**64, ()


def ends_of_copy(image):
    """By how much byte 488 of sector 1 is above byte 23 of sector 2."""
    return (image.sector(1)[488] - image.sector(2)[23]) % 2**64, ()


CHECKERS = {
    "zero": ("mov64 r1, 0; call 5; exit", "slots 3 budget 3", lambda image: (int(image.sector(0) == ZEROS), ())),
    "same": ("mov64 r1, 0; mov64 r2, 1; call 7; exit", "slots 4 budget 4", lambda image: (int(image.sector(0) == image.sector(1)), ())),
    "a load": (
        "mov64 r1, 1; call 1; jeq r0, 0, +1; ldxb r0, [r0+511]; exit",
        "slots 5 budget 5",
        lambda image: (image.sector(1)[511], ()),
    ),
    "a sector that is named": (
        "mov64 r1, 0; call 1; jeq r0, 0, +3; ldxb r1, [r0+0]; call 5; exit; mov64 r0, 0; exit",
        "slots 8 budget 6",
        pointed,
    ),
    "copy": (
        "mov64 r1, 1000; mov64 r2, r10; sub64 r2, 64; mov64 r3, 48; call 2; ldxb r0, [r10-64]; ldxb r1, [r10-17]; sub64 r0, r1; exit",
        "slots 9 budget 9",
        ends_of_copy,
    ),
    "the epoch": (
        "ldxdw r6, [r1+8]; mov64 r1, 0; call 1; jeq r0, 0, +1; ldxb r0, [r0+0]; sub64 r0, r6; exit",
        "slots 7 budget 7",
        epoch_of_0,
    ),
}

# Not for the verifier: the address of sector 2 by its number.
BY_NUMBER = program("lddw r1, 12884903936; ldxb r0, [r1+5]; exit"), Checker("slots 4 limit 9", lambda image: (image.sector(2)[5], ()))

RUNS = {
    "equal writes": Run([W(0, 1, 0xAA), W(0, 1, 0xAA), *others(1, 12)], 16, "flush", 2),
    "equal writes, three": Run([W(0, 1, 0xAA), *others(3, 5), W(0, 2, 0xAA), *others(8, 4), W(0, 1, 0xAA)], 16, "flush", 3),
    "names": Run([W(0, 1, 3), W(3, 1, 1), *others(8, 6), W(0, 1, 5), W(5, 1, 1), W(0, 1, 0), *others(8, 3)], 16, "flush", 2),
    "names, torn": Run([W(0, 1, 3), W(3, 2, 1), *others(8, 4), W(0, 1, 4), D(3, 1)], 12, "flush", 2, True),
    "two epochs": Run([W(0, 1, 0), *others(1, 11), F, W(0, 1, 1), *others(1, 6), M("m"), *others(3, 5), F, W(1, 2, 2)], 16, "flush", 2),
    "writes": Run([W(0, 3, 1), *others(4, 8), W(2, 2, 1), W(1, 1, 2, FUA), W(0, 1, 4), *others(9, 4)], 16, "flush", 2, by="write"),
    "all cuts": Run([W(0, 1, 1), *others(2, 12), W(1, 1, 3), W(0, 1, 2)], 16, "all", 2),
}


def row(name, run, programs, checkers, options):
    """A row of a run by the model."""
    report = functools.lru_cache(maxsize=None)(lambda: explored(run, checkers))
    status = 1 if any(checker.judge(image)[0] for image in run.images() for checker in checkers) else 0
    return explore(f"footprints: {name}{options}", f"{run.options()}{options}", run.entries, programs, Long(report), status)


def rows_of(name, run):
    """The rows of a run: each checker, and all of them, by one worker and by four; and one without the verifier."""
    made = [(program(text), Checker(about, judge)) for text, about, judge in CHECKERS.values()]
    alone = [row(f"{name}, {word}", run, it[0], [it[1]], "") for word, it in zip(CHECKERS, made)]
    programs, checkers = [it[0] for it in made], [it[1] for it in made]
    together = [row(f"{name}, all", run, programs, checkers, options) for options in ("", " --workers 4")]
    return [*alone, *together, row(f"{name}, by number", run, BY_NUMBER[0], [BY_NUMBER[1]], " --checked 9")]


ROWS = [it for name, run in RUNS.items() for it in rows_of(name, run)]
