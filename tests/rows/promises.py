"""Marks that promise what nothing made durable, and entries with FUA where parts are torn: their notes, against the model
(docs/REFUSALS.md, Notes)."""
import random

from model import Run, cut_notes, forced_notes, one_loss_notes, promise_notes
from notation import FLUSH, FUA, D, Entry, F, Long, M, Row, Something, W, files, log, program

# A checker that looks at sector 0, and passes.
LOOKS = program("mov64 r1, 0; call 5; mov64 r0, 0; exit")

LOGS = {
    "no mark": [W(0, 1, 1)],
    "a mark at entry 0": [M("m"), W(0, 1, 1)],
    "nothing before a mark": [F, M("m")],
    "no flush": [W(0, 1, 1), M("m")],
    "a flush": [W(0, 1, 1), F, M("m")],
    "a flush before a write": [F, W(0, 1, 1), M("m")],
    "a flush between two writes": [W(0, 1, 1), F, W(1, 1, 2), M("m")],
    "a flush with data": [W(0, 1, 1), W(1, 1, 2, FLUSH), M("m")],
    "a flush with data and FUA": [W(0, 1, 1), W(1, 1, 2, FLUSH | FUA), M("m")],
    "two marks in a row": [W(0, 1, 1), M("m"), M("n")],
    "a write, a mark and a flush": [W(0, 1, 1), M("m"), F, M("n")],
    "a write after a mark": [W(0, 1, 1), F, M("m"), W(0, 1, 2), M("n")],
    "FUA": [W(0, 2, 1, FUA), M("m")],
    "FUA over all of a write": [W(1, 2, 1), W(0, 4, 2, FUA), M("m")],
    "FUA over the first sector": [W(0, 2, 1), W(0, 1, 2, FUA), M("m")],
    "FUA over the last sector": [W(0, 2, 1), W(1, 1, 2, FUA), M("m")],
    "FUA over both sectors, one after the other": [W(0, 2, 1), W(1, 1, 2, FUA), W(0, 1, 3, FUA), M("m")],
    "FUA before a write": [W(0, 2, 2, FUA), W(0, 2, 1), M("m")],
    "FUA before the mark before": [W(0, 2, 2, FUA), M("m"), W(0, 2, 1), M("n")],
    "FUA after the mark": [W(0, 2, 1), M("m"), W(0, 2, 2, FUA), M("n")],
    "FUA over one of two writes": [W(0, 1, 1), W(1, 1, 1), W(0, 1, 2, FUA), M("m")],
    "FUA over a write that isn't the last of its sector": [W(0, 1, 1), W(0, 1, 2, FUA), W(0, 1, 3), M("m")],
    "FUA without sectors": [W(0, 1, 1), Entry(flags=FUA), M("m")],
    "a discard": [D(0, 4), M("m")],
    "a discard with FUA": [W(0, 1, 1), D(0, 4, FUA), M("m")],
    "a discard after a write": [W(0, 1, 1), D(0, 4), M("m")],
    "a write without sectors": [Entry(), M("m")],
    "eight marks": [W(0, 1, 1), M("m")] * 8,
    "nine marks": [W(0, 1, 1), M("m")] * 9,
    "each second of forty marks": [W(0, 1, 1), M("m"), W(1, 1, 2), F, M("n")] * 20,
    "the last sector": [W(3, 1, 1), W(0, 3, 2, FUA), M("m")],
}
MARKED = [W(0, 1, 1), M("m"), W(1, 1, 2), M("n")]
FORCED = [W(0, 1, 1), W(1, 2, 2, FUA), D(0, 2, FUA), Entry(flags=FLUSH | FUA), W(3, 1, 1)]
COMMANDS = ("explore log p0", "why log p0", "cure log p0", "page log p0")


def of_marks(name, run, command="log log"):
    """A row that has what is noted of marks alone."""
    options = run.options() if command != "log log" else f"--sectors {run.sectors}{' --flush ' + ','.join(map(str, run.flush)) if run.flush else ''}"
    return Row(f"marks: {name}: {command}", f"{command} {options}", files(Long(lambda: log(run.recorded)), LOOKS), Something(), notes=promise_notes(run))


def of_tears(name, run, command):
    """A row that has what is noted of marks and of FUA."""
    return Row(f"FUA: {name}: {command}", f"{command} {run.options()}", files(run.recorded, LOOKS), Something(), notes=[*promise_notes(run), *cut_notes(run), *forced_notes(run), *one_loss_notes(run, command.split()[0])])


def chance(number):
    """A log by chance, with many marks."""
    pick = random.Random(f"marks {number}")
    kinds = (
        lambda: W(pick.randrange(3), pick.randint(1, 2), 1),
        lambda: W(pick.randrange(2), pick.randint(1, 3), 2, FUA),
        lambda: W(pick.randrange(4), 1, 3, pick.choice((FLUSH, FLUSH | FUA))),
        lambda: D(pick.randrange(3), 2, pick.choice((0, FUA))),
        lambda: F,
        lambda: M("m"),
        lambda: M("m"),
    )
    entries = [pick.choice(kinds)() for _place in range(pick.randint(4, 24))]
    return Run(entries, flush=tuple(sorted(pick.sample(range(len(entries)), pick.choice((0, 0, 1, 2))))))


ROWS = [
    *(of_marks(name, Run(entries)) for name, entries in LOGS.items()),
    *(of_marks(f"of two, a flush at {flush}", Run(MARKED, flush=flush)) for flush in ((0,), (1,), (2,), (3,), (1, 3))),
    *(of_marks("two of them", Run(MARKED, bound=0), command) for command in COMMANDS),
    *(of_marks("two of them, with flushes", Run(MARKED, bound=0, flush=(1, 3)), command) for command in COMMANDS),
    *(of_marks("a range of cuts", Run(MARKED, bound=0, first=0, last=1), command) for command in COMMANDS),
    Row("marks: nothing is noted of them by images", "images log --sectors 4 --bound 0", files(MARKED), Something(), notes=[]),
    *(of_marks(f"by chance, {number}", chance(number)) for number in range(120)),
    of_marks("the last sector of the device", Run([W(16383, 1, 1), M("m"), W(16380, 4, 1), W(16381, 3, 1, FUA), M("n")], 16384)),
    of_marks("the last of 10,000", Run([W(0, 1, 1, FUA), M("m")] * 9996 + [W(0, 1, 1), M("m")] * 4)),
    *(of_tears("tears", Run(FORCED, tears=True, by="write"), command) for command in (*COMMANDS, "images log")),
    *(of_tears("no tears", Run(FORCED, by="write"), command) for command in (*COMMANDS, "images log")),
    of_tears("bound 0", Run(FORCED, tears=True, bound=0), "images log"),
    of_tears("tears, and no FUA", Run([W(0, 1, 1), Entry(flags=FLUSH | FUA)], tears=True), "images log"),
    of_tears("tears, and marks", Run([*FORCED, M("m")], tears=True, by="write"), "explore log p0"),
]
