"""Runs as a page for a browser, compared with the model (page_model.py), and of the designs of examples/."""
from dataclasses import replace

from designs import EXAMPLES, JOURNAL_RIGHT, JOURNAL_WRONG, data, pages, two_slots
from model import Checker, Run
from notation import FLUSH, MARK, Entry, F, Long, M, W, explore
from page_model import page

from rows.modelled import CHECKERS, PROGRAMS, any_fails, runs
from rows.why import FEW, PAGES, RECORDS, SLOTS, TWO_TORN

# A mark whose text would be markup, and a write of which the text of an image is too long.
MARKUP = [W(0, 1, 1), M("</a><script>alert('1')</script> & more"), W(0, 60, 2), M("after")]


# Marks that are UTF-8, with control characters and without, and one that isn't.
MARKS = [W(0, 1, 1), M("gr\u00fc\u00dfe, \u65e5\u672c\u8a9e \\ \u202e\x85\x00<"), Entry(flags=MARK, text=b"\xff<\x00\""), W(1, 1, 2)]

# A write that is lost and a later one that arrived, so often that not all missing flushes are named.
OFTEN = [W(number % 2, 1, number + 1) for number in range(40)]

# Logs that are folded: marks with a write now and then, of which all cuts fail, and writes after many marks.
SPARSE = [W(number // 90 % 4, 1, 1, FLUSH) if number % 90 == 0 else M(f"mark {number}") for number in range(1010)]
LATE = [*(M("m") for _number in range(1000)), *OFTEN[:12], F, *OFTEN[:3]]


# Every few runs one is looked at.
STEP = 7


def paged(name, options, entries, programs, out, status):
    """A row of `page`."""
    row = explore(name, options, entries, programs, out, status)
    return replace(row, words=row.words.replace("explore ", "page ", 1))


def modelled(name, run):
    status = 1 if any_fails(run) else 0
    return paged(f"page: {name}", run.options(), run.recorded, PROGRAMS[:2], Long(lambda: page(run, CHECKERS[:2])), status)


def design(which, run, about, judge, status):
    """The page of a design: what is stored, which is the model's."""
    wanted = page(run, [Checker(about, judge)]).encode()
    assert wanted == data(EXAMPLES / f"{which}.page.html"), f"{which}.page.html isn't the model's"
    folder = which.split("/")[0]
    return paged(f"page: {which}", run.options(), run.recorded, data(EXAMPLES / f"{folder}/checker.bpf"), wanted, status)


ROWS = [
    design("two_slots/right", Run(two_slots(FLUSH), 4, **TWO_TORN), *SLOTS, 0),
    design("two_slots/wrong", Run(two_slots(0), 4, **TWO_TORN), *SLOTS, 1),
    design("journal/right", Run(JOURNAL_RIGHT, 8, **TWO_TORN), *RECORDS, 0),
    design("journal/wrong", Run(JOURNAL_WRONG, 8), *RECORDS, 1),
    design("pages/right", Run(pages(FLUSH), 24, by="write", **TWO_TORN), *PAGES, 0),
    design("pages/wrong", Run(pages(0), 24, by="write", **TWO_TORN), *PAGES, 1),
    modelled("markup in a mark", Run(MARKUP, 64)),
    modelled("markup in a mark, by write", Run(MARKUP, 64, by="write")),
    modelled("marks in UTF-8", Run(MARKS, 4)),
    modelled("no wanted cut", Run(OFTEN, 4, cuts="flush", first=0, last=1)),
    modelled("flushes missing often", Run(OFTEN, 4)),
    modelled("999 entries", Run(SPARSE[:999], 4, first=900)),
    modelled("1,000 entries", Run(SPARSE[:1000], 4, first=900)),
    modelled("1,010 entries", Run(SPARSE, 4, by="write")),
    modelled("many entries, some cuts", Run(SPARSE, 4, cuts="flush", first=90, last=700)),
    modelled("many entries, flushes missing", Run(LATE, 4, first=995)),
    *(modelled(name, run) for name, run in list(runs())[::STEP] if sum(1 for _image in run.images()) <= FEW),
]
