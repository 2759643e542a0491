"""Flushes that are added, and ranges of cuts, in the commands whose own tables have none of them: `log` and `page`; of the designs of
examples/ in all commands that take them. Compared with the model (model.py, page_model.py)."""
from dataclasses import replace

from designs import DESIGNS, EXAMPLES, checker_of, data, folder_of
from model import Run, entry_line, explored, shown
from notation import Long, Row, explore, files

from rows.browser import modelled as paged
from rows.modelled import DISCARDED, EMPTY_ENTRIES, MARKED, narrowed
from rows.why import causes

# How many images a run may have of which the model is to make a page, and each how many of the runs are looked at.
FEW, STEP = 300, 30


def logged(name, entries, flush):
    """A log as a table, with flushes that are added."""
    run = Run(entries, flush=flush)
    words = ",".join(str(it) for it in flush)
    table = "".join(f"{entry_line(run, number)}\n" for number in range(len(entries)))
    return Row(f"ranges: {name}, --flush {words}", f"log log --flush {words}", files(entries), table)


LOGGED = [
    logged(name, entries, flush)
    for name, entries in [("discarded", DISCARDED), ("empty entries", EMPTY_ENTRIES), ("marked", MARKED)]
    for flush in [(0,), (6,), (5, 2, 2), (0, 1, 2, 3, 4, 5, 6)]
]

# A design with some of the flushes that it lacks, and at some of its cuts: two commits of which the second is still broken.
PARTLY = {
    "two_slots/wrong": dict(bound=2, flush=(1,), first=3, last=7),
    "pages/wrong": dict(by="write", bound=2, flush=(1, 5), first=9),
    "tree/wrong": dict(bound=2, flush=(3, 13, 3), last=10),
    "tree/order": dict(cuts="flush", flush=(12, 3), first=3, last=13),
    "double_write/wrong": dict(bound=2, flush=(1,), first=7, last=8),
    "double_write/order": dict(cuts="mark", bound=1, flush=(1, 6), first=5, last=10),
    "journal/at_once": dict(bound=2, flush=(0, 4), first=5, last=5),
}


def partly(which, options):
    """What is said of such a run, and of an image of it."""
    design = DESIGNS[which]
    run = Run(design.recorded, design.sectors, **options)
    checkers, program = [checker_of(which)], data(EXAMPLES / f"{folder_of(which)}/checker.bpf")
    report, images = explored(run, checkers), list(run.images())
    row = explore(f"ranges: {which}, {run.options()}", run.options(), run.recorded, program, report, 0 if " failing 0 " in report else 1)
    whys = Long(lambda: causes(run, checkers))
    content, number = {"log": row.files["log"]}, len(images) // 2
    return [
        row,
        replace(row, name=f"{row.name}, why", words=row.words.replace("explore ", "why ", 1), out=whys),
        Row(f"{row.name}, images", f"images log {run.options()}", content, run.survey()),
        Row(f"{row.name}, image {number}", f"image log {number} {run.options()}", content, images[number].content()),
        Row(f"{row.name}, image {number} in words", f"show log {number} {run.options()}", content, shown(run, images[number])),
    ]


ROWS = [
    *LOGGED,
    *(row for which, options in PARTLY.items() for row in partly(which, options)),
    *(
        replace(paged(name, run), name=f"ranges: page, {name}")
        for name, run in list(narrowed())[::STEP]
        if sum(1 for _image in run.images()) <= FEW
    ),
]
