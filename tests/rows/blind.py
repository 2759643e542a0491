"""Checkers that look at nothing of what the log writes: the note of them, against the model (docs/CRASH-MODEL.md, 'A checker that
looks at nothing')."""
from cases_model import ANY, cases, status as status_of
from model import Checker, Run, blind_notes, cured, cut_notes, explored, forced_notes, one_loss_notes, promise_notes
from notation import FUA, D, F, Long, M, Row, Something, W, files, program
from parts_model import count, found

ZEROS = bytes(512)


def look(number):
    """Looks whether a sector is zeros."""
    return f"mov64 r1, {number}; call 5"


def looks_at(first, many=1):
    """What the model says of a program that looks at sectors, and passes."""

    def judge(image):
        for number in range(first, first + many):
            image.sector(number)
        return 0, ()

    return judge


def by_epoch(image):
    """Looks at sector 9 before the first flush, and at sector 0 after it."""
    image.sector(9 if image.epoch() == 0 else 0)
    return 0, ()


# The instructions, how many slots and steps they have, and what the model says of them
PROGRAMS = {
    "nothing": ("mov64 r0, 0; exit", 2, 2, lambda image: (0, ())),
    "a sector that no entry covers": (f"{look(9)}; sub64 r0, 1; exit", 4, 4, lambda image: ((int(image.sector(9) == ZEROS) - 1) % 2**64, ())),
    "a sector that is written": (f"{look(0)}; mov64 r0, 0; exit", 4, 4, looks_at(0)),
    "a sector that is discarded": (f"{look(5)}; mov64 r0, 0; exit", 4, 4, looks_at(5)),
    "the last sector of a write": (f"{look(3)}; mov64 r0, 0; exit", 4, 4, looks_at(3)),
    "the sector after a write": (f"{look(4)}; mov64 r0, 0; exit", 4, 4, looks_at(4)),
    "nothing, and fails": ("mov64 r0, 1; exit", 2, 2, lambda image: (1, ())),
    "nothing, and fails after a mark": ("ldxdw r0, [r1+16]; exit", 2, 2, lambda image: (image.marks(), ())),
    "a written one from the first flush on": ("ldxdw r6, [r1+8]; mov64 r1, 9; jeq r6, 0, +1; mov64 r1, 0; call 5; mov64 r0, 0; exit", 7, 7, by_epoch),
    "32 sectors": ("; ".join([*map(look, range(8, 40)), "mov64 r0, 0", "exit"]), 66, 66, looks_at(8, 32)),
    "33 sectors": ("; ".join([*map(look, range(8, 41)), "mov64 r0, 0", "exit"]), 68, 68, looks_at(8, 33)),
}
ENTRIES = [W(1, 3, 1), W(0, 1, 2), F, D(5, 2), M("m"), W(0, 1, 3, FUA), W(1, 1, 4)]
MARKLESS = [W(1, 3, 1), F, W(1, 1, 4)]
RUNS = {
    "all cuts": Run(ENTRIES, 64),
    "cuts before flushes": Run(ENTRIES, 64, "flush", 2),
    "cuts after marks": Run(ENTRIES, 64, "mark", 1, True),
    "no cut": Run(MARKLESS, 64, "mark"),
    "no cut of a range": Run(ENTRIES, 64, "mark", last=4),
    "no cut before a flush in a range": Run(MARKLESS[:1], 64, "flush", first=0, last=0),
    "cuts before flushes, of none": Run(MARKLESS[:1], 64, "flush"),
    "cuts before flushes, of one that is added": Run([*MARKLESS[:1], *MARKLESS[2:]], 64, "flush", flush=(1,)),
    "cuts before the mark": Run(ENTRIES, 64, "all", 1, last=4),
    "bound 0": Run(ENTRIES, 64, "all", 0),
    "by write": Run(ENTRIES, 64, "all", 2, by="write"),
    "a flush that is added": Run(ENTRIES, 64, "all", 1, flush=(1,)),
    "over what was there": Run(ENTRIES, 64, "all", 1, base=bytes(512 * 9)),
    "an empty log": Run([], 64),
}
ALL = RUNS["all cuts"]
# Flushes and marks: as many as are few, and one more. They are counted up to the last wanted cut. More are few beside many cuts.
FEW = 1024
MANY = {
    "as many flushes as are few": Run([F] * FEW, 4, "flush", 0),
    "a flush more": Run([F] * (FEW + 1), 4, "flush", 0),
    "flushes, and a mark more": Run([*[F] * FEW, M("m")], 4, "all", 0),
    "marks, and a flush more": Run([*[M("m")] * FEW, F], 4, "mark", 0),
    "a flush more after the last cut": Run([F] * (FEW + 1), 4, "all", 0, last=FEW),
}
WIDE = {
    "a flush more, at sixteen times as many cuts": Run([*[F] * (FEW + 1), *[D(5, 1)] * (15 * (FEW + 1) - 1)], 8, "all", 0),
    "a flush more, at one cut less": Run([*[F] * (FEW + 1), *[D(5, 1)] * (15 * (FEW + 1) - 2)], 8, "all", 0),
}


def made(names, checked):
    """Programs by their names, and what the model says of them."""
    chosen = [PROGRAMS[it] for it in names]
    about = [f"slots {slots} {f'limit {checked}' if checked else f'budget {steps}'}" for _text, slots, steps, _judge in chosen]
    return [program(it[0]) for it in chosen], [Checker(word, it[3]) for word, it in zip(about, chosen)]


def large_notes(run):
    """What is noted of writes that are never lost as a whole."""
    large = sum(1 for it in run.entries if not it.flags & FUA and it.count > run.bound)
    if run.by == "write" or run.bound == 0 or not large:
        return []
    return [f"entries with more than {run.bound} sectors: {large}; none is ever dropped as a whole", "with --by write each may be dropped as a whole"]


def noted(name, run, names, more="", checked=None, command="explore", out=None, status=None, notes=None):
    """A row of a run, with its notes."""
    programs, checkers = made(names, checked)
    options = f"{run.options()}{more}{f' --checked {checked}' if checked else ''}"
    content = files(run.recorded, *programs)
    if run.base:
        content["base"] = run.base
    if status is None:
        status = 1 if any(checker.judge(image)[0] for image in run.images() for checker in checkers) else 0
    said = blind_notes(run, checkers) if notes is None else notes
    words = f"{command} log {' '.join(f'p{number}' for number in range(len(programs)))} {options}"
    text = Long(lambda: explored(run, checkers, " --first" in more)) if out is None else out(run, programs, checkers)
    told = f"{more} --checked {checked}" if checked else more
    return Row(f"blind: {command}, {name}: {', '.join(names)}{told}", words, content, text, status, notes=[*said, *promise_notes(run), *cut_notes(run), *large_notes(run), *forced_notes(run), *([] if "--images" in more else one_loss_notes(run, command))])


def anything(run, programs, checkers):
    return Something()


def of_part(start, end, names, more=""):
    """A row of a part. What it prints is looked at in joining.py."""
    failing = found(ALL, made(names, None)[1], start, end, " --first" in more)[1]
    return noted("a part", ALL, names, f" --images {start}..{end}{more}", out=anything, status=1 if failing else 0)


def cure_of(run, programs, checkers):
    return Long(lambda: cured(run, checkers))


def of_cases(name, run, names, more="", command="explore"):
    """A row of a run of any number of losses, with its notes."""
    programs, checkers = made(names, None)
    text = cases(run, checkers, ANY)
    options = run.options().replace(f"--bound {run.bound}", "--bound any")
    words = f"{command} log {' '.join(f'p{number}' for number in range(len(programs)))} {options}{more}"
    content = {**files(run.recorded, *programs), **({"base": run.base} if run.base else {})}
    out = Something() if more or command != "explore" else text
    return Row(f"blind: cases, {command}, {name}: {', '.join(names)}{more}", words, content, out, status_of(text), notes=[*blind_notes(run, checkers), *promise_notes(run), *cut_notes(run)])


NOTHING, WRITTEN, FAILS, AT_MARK = "nothing", "a sector that is written", "nothing, and fails", "nothing, and fails after a mark"
SOME = [NOTHING, WRITTEN, "a sector that no entry covers", FAILS, "the last sector of a write", AT_MARK, "the sector after a write"]
ROWS = [
    *(noted("all cuts", ALL, [name]) for name in PROGRAMS),
    *(noted(name, run, SOME) for name, run in RUNS.items()),
    *(noted(name, run, [NOTHING]) for name, run in MANY.items()),
    *(noted(name, run, [NOTHING], out=anything, status=0) for name, run in WIDE.items()),
    *(noted("all cuts", ALL, SOME, more) for more in (" --first", " --workers 4", " --workers 3 --cache 64")),
    *(noted("all cuts, first", ALL, [NOTHING, name], " --first") for name in (WRITTEN, AT_MARK)),
    *(noted("all cuts", ALL, [name], checked=99) for name in (NOTHING, WRITTEN, FAILS, "32 sectors", "33 sectors")),
    noted("out of steps", ALL, [NOTHING], checked=1, out=anything, status=1, notes=[]),
    *(of_part(start, end, SOME, more) for start, end in ((0, 1), (3, 9), (0, count(ALL))) for more in ("", " --first")),
    *(of_part(start, end, [NOTHING, AT_MARK]) for start, end in ((0, 1), (count(ALL) - 1, count(ALL)))),
    *(noted("all cuts", ALL, SOME, command=command, out=anything) for command in ("why", "page")),
    noted("all cuts", ALL, [NOTHING, WRITTEN], command="cure", out=cure_of, notes=[]),
    *(of_cases(name, run, SOME) for name, run in RUNS.items() if not run.tears),
    *(of_cases("all cuts", ALL, [name]) for name in PROGRAMS),
    *(of_cases("all cuts", ALL, [NOTHING, WRITTEN], more) for more in (" --first", " --workers 4", " --from 2 --to 4")),
    *(of_cases("all cuts", ALL, SOME, command=command) for command in ("why", "page")),
]
