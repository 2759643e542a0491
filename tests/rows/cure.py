"""Where flushes are missing: what `cure` prints of many logs, compared with the model (model.py), and of the designs of examples/."""
# Seen to fail for planted bugs of the line of progress: the last image in place of their number, a number that isn't set back.
from dataclasses import replace

from designs import EXAMPLES, JOURNAL_RIGHT, JOURNAL_WRONG, data, pages, two_slots
from model import Checker, Run, cure_rounds, cured
from notation import FLUSH, Long, explore, lines

from rows.modelled import CHECKERS, PROGRAMS, any_fails, narrowed, runs
from rows.why import FEW, PAGES, RECORDS, SLOTS, TWO_TORN


def cure(name, options, entries, programs, out, status):
    """A row of `cure`."""
    row = explore(name, options, entries, programs, out, status)
    return replace(row, words=row.words.replace("explore ", "cure ", 1))


def design(name, folder, run, wanted, status):
    """A design of examples/."""
    return cure(f"cure: {name}", run.options(), run.recorded, data(EXAMPLES / f"{folder}/checker.bpf"), wanted, status)


def modelled(name, run):
    """Where flushes are missing for the failures of two programs on the images of a run."""
    status = 1 if any_fails(run) else 0
    return cure(f"cure: {name}", run.options(), run.recorded, PROGRAMS[:2], Long(lambda: cured(run, CHECKERS[:2])), status)


def design_modelled(name, folder, run, about, judge, status, work=""):
    """A design of examples/, compared with the model; `work` says who does the work."""
    row = design(name, folder, run, Long(lambda: cured(run, [Checker(about, judge)])), status)
    return replace(row, words=row.words + work)


# The runs of which docs/OUTPUT.md prints the text, and what their checkers answer
WRONG_SLOTS = Run(two_slots(0), 4, bound=2)
WRONG_PAGES = Run(pages(0), 24, by="write", **TWO_TORN)
WRONG_JOURNAL = Run(JOURNAL_WRONG, 8)
JUDGED = [(WRONG_SLOTS, SLOTS[1]), (WRONG_PAGES, PAGES[1]), (WRONG_JOURNAL, RECORDS[1])]

STATED = [
    design(
        "two_slots, wrong",
        "two_slots",
        WRONG_SLOTS,
        "crash cure 1\n" + lines("""
            sectors 4 entries 12 cuts all bound 2 tears no first no
            program 0 slots 39 budget 87
            program 0 failing 3 uncured 0
            round 1 flush before 1 from 1 failing 1
            round 1 flush before 5 from 5 failing 1
            round 1 flush before 9 from 9 failing 1
            images 19 failing 0 lines 0
            """),
        1,
    ),
    design(
        "pages, wrong",
        "pages",
        WRONG_PAGES,
        "crash cure 1\n" + lines("""
            sectors 24 entries 12 cuts all bound 2 tears yes first no by write
            program 0 slots 53 budget 1026
            program 0 failing 8 uncured 0
            round 1 flush before 9 from 9 failing 8
            images 583 failing 0 lines 0
            """),
        1,
    ),
    design(
        "journal, wrong",
        "journal",
        WRONG_JOURNAL,
        "crash cure 1\n" + lines("""
            sectors 8 entries 10 cuts all bound 1 tears no first no
            program 0 slots 33 budget 144
            program 0 failing 7 uncured 6
            no flush cures image 1 cut 1 program 0 answer 1 codes 1 choice -
            round 1 flush before 2 from 2 failing 1
            images 18 failing 6 lines 6
            """),
        1,
    ),
]



def with_progress(row, run, judge, workers):
    """A row of which all but the lines of progress is as ever: one for each run."""
    images = [sum(1 for _image in it.images()) for it, *_found in cure_rounds(run, [Checker("", judge)])]
    return replace(row, name=f"{row.name}, {workers} workers, with progress", words=f"{row.words} --workers {workers} --progress", images=images)


ROWS = [
    *STATED,
    *(with_progress(row, run, judge, workers) for row, (run, judge) in zip(STATED, JUDGED) for workers in [1, 4]),
    design_modelled("two_slots, right", "two_slots", Run(two_slots(FLUSH), 4, **TWO_TORN), *SLOTS, 0),
    design_modelled("two_slots, wrong, torn", "two_slots", Run(two_slots(0), 4, **TWO_TORN), *SLOTS, 1),
    design_modelled("two_slots, wrong, one flush added", "two_slots", Run(two_slots(0), 4, flush=(5,), **TWO_TORN), *SLOTS, 1),
    design_modelled("two_slots, wrong, cuts of flushes", "two_slots", Run(two_slots(0), 4, "flush", 2), *SLOTS, 1),
    design_modelled("two_slots, wrong, some cuts", "two_slots", Run(two_slots(0), 4, bound=2, first=3, last=7), *SLOTS, 1),
    design_modelled("journal, right", "journal", Run(JOURNAL_RIGHT, 8, **TWO_TORN), *RECORDS, 0),
    design_modelled("journal, wrong, torn", "journal", Run(JOURNAL_WRONG, 8, **TWO_TORN), *RECORDS, 1, " --workers 4 --cache 100"),
    design_modelled("pages, right", "pages", Run(pages(FLUSH), 24, by="write", **TWO_TORN), *PAGES, 0),
    design_modelled("pages, wrong, by 64 workers", "pages", WRONG_PAGES, *PAGES, 1, " --workers 64"),
    *(modelled(name, run) for name, run in runs() if sum(1 for _image in run.images()) <= FEW),
    *(modelled(name, run) for name, run in list(narrowed())[::20] if sum(1 for _image in run.images()) <= FEW),
]
