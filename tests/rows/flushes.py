"""Where flushes are missing: the stored texts of `cure` of the designs of examples/, logs whose windows end at marks, forced
writes and discards, several programs, runs that are refused; compared with cure_model.py, which is written from the documents
alone."""
from dataclasses import replace

from cure_model import MOST, cure, images_at, too_many_at, windows_hold
from designs import DESIGNS, EXAMPLES, FORGOTTEN, checker_of, data, folder_of
from model import Checker, Run
from notation import DISCARD, FLUSH, FUA, D, Entry, F, Long, M, S, Something, W, explore, files, named, program, refused

from rows.limits import LONG_RUN
from rows.modelled import CHECKERS, PROGRAMS, any_fails, narrowed, noise, runs

# How many images a run may have of which the model is to make the rounds, and each how many of the runs are looked at.
FEW, STEP, STEP_NARROWED = 300, 5, 9


def cured(name, options, entries, programs, out, status, seconds=None):
    """A row of `cure`."""
    row = explore(f"flushes: {name}", options, entries, programs, out, status)
    row = replace(row, words=row.words.replace("explore ", "cure ", 1))
    return replace(row, seconds=seconds) if seconds else row


# The designs


def design(which):
    """Where flushes are missing in a design: what is stored, which is the model's. Its right version has nothing to cure. Of a
    wrong one either a flush is named for each failing image, and with them nothing fails, or one that no flush cures is named."""
    run = DESIGNS[which]
    wanted = cure(run, [checker_of(which)])
    assert wanted.encode() == data(EXAMPLES / f"{which}.cure"), f"{which}.cure isn't the model's"
    lines, right = wanted.splitlines(), which.endswith("right")
    named_flush, left = any(it.startswith("round 1 ") for it in lines), " failing 0 " not in lines[-1]
    uncured = any(it.startswith("no flush cures ") for it in lines)
    assert right == (not named_flush and not left and not uncured) and left == uncured and (right or named_flush or uncured)
    programs = data(EXAMPLES / f"{folder_of(which)}/checker.bpf")
    return cured(which, run.options(), run.recorded, programs, wanted, 0 if right else 1)


# where a flush was forgotten, just that one is named, and with it nothing fails
for which, places in FORGOTTEN.items():
    stored = data(EXAMPLES / f"{which}.cure").decode().splitlines()
    named_places = tuple(int(it.split()[4]) for it in stored if it.startswith("round "))
    assert named_places == places, f"{which}.cure names other flushes"
    assert stored[-1].endswith(" failing 0 lines 0")

# What docs/OUTPUT.md shows of them with other options.
SHOWN = [
    ("two_slots/wrong", dict(bound=2)),
    ("pages/wrong", dict(bound=2, tears=True, by="write")),
    ("journal/wrong", dict()),
]


def design_with(which, options):
    """A design with other options."""
    run = Run(DESIGNS[which].recorded, DESIGNS[which].sectors, **options)
    programs = data(EXAMPLES / f"{folder_of(which)}/checker.bpf")
    return cured(f"{which}, {run.options()}", run.options(), run.recorded, programs, cure(run, [checker_of(which)]), 1)


# Logs


def modelled(name, run, programs=PROGRAMS[:2], checkers=CHECKERS[:2]):
    """What is missing for two programs."""
    status = 1 if any_fails(run) else 0
    return cured(name, run.options(), run.recorded, programs, Long(lambda: cure(run, checkers)), status)


def lost(image):
    """By LOST: the first byte of sector 0 isn't 1, though a mark was passed."""
    return (1 if image.marks() and image.sector(0)[0] != 1 else 0), ()


LOST = program(
    "ldxdw r6, [r1+16]; mov64 r0, 0; jeq r6, 0, +7; mov64 r1, 0; call 1; jeq r0, 0, +4; ldxb r1, [r0+0]; mov64 r0, 0; "
    "jeq r1, 1, +1; mov64 r0, 1; exit"
)
LOST_ABOUT = "slots 11 budget 11"

# Windows that end at a mark, with and without other entries between; a forced write; entries without sectors; discards.
ENDS = {
    "a mark alone": [W(0, 1, 1), M("kept")],
    "a mark, and entries without sectors": [W(0, 1, 1), Entry(), M("kept"), Entry(flags=FUA), Entry(flags=DISCARD)],
    "a mark before other writes": [W(0, 1, 1), M("kept"), W(1, 1, 2), W(1, 1, 3)],
    "a forced write after": [W(0, 1, 1), W(1, 1, 2, FUA), M("kept")],
    "a forced write itself": [W(0, 1, 1, FUA), M("kept")],
    "a discard after": [W(0, 1, 1), D(1, 1), M("kept")],
    "a discard that is lost": [W(0, 1, 2), W(0, 1, 1), D(0, 2), W(0, 2, 1), M("kept")],
    "a flush with the write": [W(0, 1, 1, FLUSH), M("kept"), W(0, 1, 1, FLUSH), M("kept")],
    "two marks": [M("none"), W(0, 1, 1), M("kept"), F, W(0, 1, 2), W(0, 1, 1), M("kept")],
    "a wide write": [W(0, 2, 1), W(1, 2, 2), M("kept"), F, W(0, 3, 1), M("kept")],
}


def ended():
    """All ways in which the parts may depart."""
    for name, entries in ENDS.items():
        for by in ["sector", "write"]:
            for bound, tears in [(1, False), (2, False), (1, True)]:
                run = Run(entries, 4, bound=bound, tears=tears, by=by)
                yield cured(
                    f"{name}, {run.options()}",
                    run.options(),
                    entries,
                    LOST,
                    Long(lambda run=run: cure(run, [Checker(LOST_ABOUT, lost)])),
                    1 if any(lost(image)[0] for image in run.images()) else 0,
                )


# A failing image goes, and with the flush another cut is explored that fails: more rounds.
MORE_CUTS = [S(0, noise(1)), S(1, noise(2)), M("a"), S(0, noise(3)), M("b"), S(1, noise(4)), M("c")]

ROUNDS = [
    modelled(f"more cuts, {run.options()}", run)
    for run in [Run(MORE_CUTS, 2, "flush", bound, False, by) for bound in [1, 2] for by in ["sector", "write"]]
]

# Three programs, of which one never fails, and one that fails on all.
THREE = [program("mov64 r0, 0; exit"), LOST, program("mov64 r0, 7; exit")]
THREE_CHECKERS = [
    Checker("slots 2 budget 2", lambda image: (0, ())),
    Checker(LOST_ABOUT, lost),
    Checker("slots 2 budget 2", lambda image: (7, ())),
]

SEVERAL = [
    cured(f"three programs, {name}", run.options(), run.recorded, THREE, Long(lambda run=run: cure(run, THREE_CHECKERS)), 1)
    for name, run in [(name, Run(entries, 4, bound=2)) for name, entries in ENDS.items()]
]

WORKERS = [
    replace(row, name=f"{row.name}, by 4 workers with a cache", words=f"{row.words} --workers 4 --cache 64")
    for row in [*ROUNDS[:2], *SEVERAL[:2]]
]

# Unchecked runs: a limit that is spent, and a fault.

UNCHECKED = [
    cured(
        "out of steps",
        "--sectors 4 --checked 28",
        [],
        named("nested_loops"),
        "crash cure 1\n"
        "sectors 4 entries 0 cuts all bound 1 tears no first no\n"
        "program 0 slots 9 limit 28\n"
        "program 0 failing 1 uncured 1\n"
        "no flush cures image 0 cut 0 program 0 out of steps choice -\n"
        "images 1 failing 1 lines 1\n",
        1,
    ),
    cured(
        "a fault",
        "--sectors 4 --checked 5 --from 2",
        [W(0, 1, 1), W(1, 1, 2)],
        program("exit"),
        "crash cure 1\n"
        "sectors 4 entries 2 cuts all bound 1 tears no first no from 2\n"
        "program 0 slots 1 limit 5\n"
        "program 0 failing 3 uncured 2\n"
        "no flush cures image 0 cut 2 program 0 fault 81 slot 0 choice -\n"
        "round 1 flush before 1 from 1 failing 1\n"
        "images 2 failing 2 lines 2\n",
        1,
    ),
]

# A later run that is refused: a flush adds a cut, and with it there is one image more than a run may have.
FULL = [5792, 36, 5]
ALMOST = [it for units in FULL for it in (D(1, units), F)] + [W(0, 1, 1), D(1, 1), M("kept")]
ALMOST_RUN = Run(ALMOST, 5793, "flush", 2)
ALMOST_CURED = Run(ALMOST, 5793, "flush", 2, flush=(8,))
assert sum(images_at(ALMOST_RUN, cut) for cut in ALMOST_RUN.wanted_cuts()) == MOST
assert too_many_at(ALMOST_RUN) is None and too_many_at(ALMOST_CURED) == 9

REFUSED_LATER = [
    cured(
        "a later run has too many images",
        ALMOST_RUN.options(),
        ALMOST,
        LOST,
        "crash cure 1\n"
        "sectors 5793 entries 9 cuts flush bound 2 tears no first no\n"
        f"program 0 {LOST_ABOUT}\n"
        "program 0 failing 2 uncured 0\n"
        "round 1 flush before 8 from 7 failing 2\n"
        "refused 12 at 9\n",
        1,
        LONG_RUN,
    ),
]

# docs/CRASH-MODEL.md, no_window: an image without a window that a flush takes out of a run which begins after the cut that
# leaves its like. With all cuts that one fails.


def both_empty(image):
    """By BOTH_EMPTY: sectors 0 and 1 both begin with 0."""
    return (1 if image.sector(0)[0] == image.sector(1)[0] == 0 else 0), ()


BOTH_EMPTY = program(
    "mov64 r1, 0; call 1; jeq r0, 0, +9; ldxb r6, [r0+0]; mov64 r1, 1; call 1; jeq r0, 0, +5; ldxb r1, [r0+0]; mov64 r0, 0; "
    "jne r6, 0, +2; jne r1, 0, +1; mov64 r0, 1; exit"
)
BOTH_EMPTY_ABOUT = "slots 13 budget 13"
TWO_WRITES = [W(0, 1, 0xAA), W(1, 1, 0xBB)]
AT_CUT_2, ALL = dict(bound=2, first=2), dict(bound=2)
NO_WINDOW = [
    ("bound 2 from 2", AT_CUT_2, ["program 0 failing 1 uncured 1", "images 4 failing 1 lines 1"]),
    ("bound 2 from 2, with a flush", dict(AT_CUT_2, flush=(1,)), ["program 0 failing 0 uncured 0", "images 2 failing 0 lines 0"]),
    ("bound 2, with a flush", dict(ALL, flush=(1,)), ["program 0 failing 2 uncured 2", "images 5 failing 2 lines 2"]),
    ("bound 2", ALL, ["program 0 failing 3 uncured 3", "images 7 failing 3 lines 3"]),
]


def without_window(name, options, lines):
    """What is said of it; `lines` are those that docs/CRASH-MODEL.md tells."""
    run = Run(TWO_WRITES, 4, **options)
    wanted = cure(run, [Checker(BOTH_EMPTY_ABOUT, both_empty)])
    assert set(lines) <= set(wanted.splitlines()) and "round " not in wanted, wanted
    return cured(f"no window, {name}", run.options(), TWO_WRITES, BOTH_EMPTY, wanted, 1 if "no flush cures " in wanted else 0)


# The laws of windows and added flushes, of all images of some logs.
LAWFUL = [TWO_WRITES, *list(ENDS.values())[:4]]
assert all(windows_hold(Run(entries, 2, bound=2, by=by)) for entries in LAWFUL for by in ["sector", "write"])

# Refusals, in their order: those of `explore`
LOG = files([W(0, 1, 1), M("kept")], program("mov64 r0, 0; exit"))


def not_cured(why, words, error, content=None):
    return refused(f"flushes: {why}", f"cure {words}", content or LOG, error)


REFUSED = [
    not_cured("no kind of cuts", "log p0 --sectors 0 --cuts some", "refused 13 at 7"),
    not_cured("no kind of parts", "log p0 --sectors 0 --by page", "refused 13 at 10"),
    not_cured("no list of entries", "log p0 --sectors 0 --flush 1,", "refused 13 at 12"),
    not_cured("no sectors", "log p0 --sectors 0 --bound 9", "refused 13 at 1"),
    not_cured("bound", "log p0 --sectors 4 --bound 4", "refused 13 at 2"),
    not_cured("a range that ends before it begins", "log p0 --sectors 4 --from 2 --to 1", "refused 13 at 13"),
    not_cured("no file", "log nothing --sectors 4", "refused 14 at 1"),
    not_cured("nine programs", f"log {' '.join(['p0'] * 9)} --sectors 4", "refused 13 at 6"),
    not_cured("no log", "log p0 --sectors 4", "refused 1 at 0", {**LOG, "log": b""}),
    not_cured("an entry that isn't there", "log p0 --sectors 4 --flush 1,2", "refused 15 at 2"),
    not_cured("a cut that isn't there", "log p0 --sectors 4 --to 3", "refused 15 at 3"),
    not_cured(
        "too many images before the program", "log p0 --sectors 64 --bound 3 --tears", "refused 12 at 1", files([W(0, 64, 1)], b"")
    ),
    not_cured("no program", "log p0 p1 --sectors 4", "refused 21 at 0 of program 1", {**LOG, "p1": b""}),
    not_cured("a program that isn't accepted", "log p0 --sectors 4", "refused 50 at 0 of program 0", {**LOG, "p0": program("exit")}),
    not_cured("the first failing image alone", "log p0 --sectors 4 --first", Something()),
    not_cured("no program at all", "log --sectors 4", Something()),
]

ROWS = [
    *(design(which) for which in DESIGNS),
    *(design_with(which, options) for which, options in SHOWN),
    *ended(),
    *ROUNDS,
    *SEVERAL,
    *WORKERS,
    *UNCHECKED,
    *REFUSED_LATER,
    *(without_window(*it) for it in NO_WINDOW),
    *REFUSED,
    *(modelled(name, run) for name, run in list(runs())[::STEP] if sum(1 for _image in run.images()) <= FEW),
    *(modelled(name, run) for name, run in list(narrowed())[::STEP_NARROWED] if sum(1 for _image in run.images()) <= FEW),
]
