"""Runs of any number of losses as pages: what `page --bound any` prints of many logs and of the designs of examples/, compared with the
model (case_page_model.py)."""
from dataclasses import replace

from case_page_model import page
from cases_model import ANY, Losses, cases, status
from designs import DESIGNS, EXAMPLES, checker_of, data, folder_of
from designs import LOGS as STORED
from model import Checker, Run
from notation import Long, W, explore, program

from rows.browser import LATE, MARKUP, OFTEN
from rows.cases import INDEXES, TABLE, runs, words_of
from rows.modelled import CHECKERS, PROGRAMS

# Every few runs one is looked at.
STEP = 5


def paged(name, run, programs, checkers, losses=ANY, more=""):
    """A row of a run, by the model."""
    options = f"{words_of(run, losses)}{more}"
    row = explore(f"page of cases: {name}, {options}", options, run.recorded, programs, Long(lambda: page(run, checkers, losses)), status(cases(run, checkers, losses)))
    row = replace(row, words=row.words.replace("explore ", "page ", 1))
    return replace(row, files={**row.files, "base": run.base}) if run.base else row


def design(which, more=""):
    """A design of examples/ by its file."""
    run, checker = DESIGNS[which], checker_of(which)
    options = words_of(run, ANY) + more
    row = explore(f"page of cases: {which}, by its file{more}", options, data(STORED / f"{which}.log"), data(EXAMPLES / f"{folder_of(which)}/checker.bpf"), Long(lambda: page(run, [checker])), status(cases(run, [checker])))
    return replace(row, words=row.words.replace("explore ", "page ", 1))


def looks_at_both(image):
    """Looks at two sectors, and passes."""
    image.sector(0)
    image.sector(1)
    return 0, ()


# Programs of which the first looks at nothing, and the second at two sectors, of which both may be torn: of it alone cases are left out.
OF_ONE = [program("mov64 r0, 0; exit"), program("mov64 r1, 0; call 5; mov64 r1, 1; call 5; mov64 r0, 0; exit")]
LEFT_OF_ONE = [Checker("slots 2 budget 2", lambda image: (0, ())), Checker("slots 6 budget 6", looks_at_both)]

ROWS = [
    *map(design, DESIGNS),
    design("tree/wrong", " --workers 3"),
    *(paged(name, run, checker[0], [checker[1]]) for name, run, checker, _count, _failing in TABLE[:6]),
    *(paged(name, run, PROGRAMS[:2], CHECKERS[:2], losses) for name, run, losses in list(runs())[::STEP]),
    paged("markup in a mark", Run(MARKUP, 64, by="write"), PROGRAMS[:1], CHECKERS[:1]),
    paged("flushes missing often", Run(OFTEN, 4), PROGRAMS[:2], CHECKERS[:2], Losses(None, 1)),
    paged("many entries", Run(LATE, 4, first=995), PROGRAMS[:2], CHECKERS[:2], Losses(None, 1)),
    paged("many entries, flushes missing often", Run([*LATE[:1000], *OFTEN], 4, first=995), PROGRAMS[:2], CHECKERS[:2], Losses(None, 1)),
    *(paged(f"cases left out of one program, {name}", Run([W(0, 1, 0xAA), W(1, 1, 0xBB)], 4, tears=True), [OF_ONE[it] for it in order], [LEFT_OF_ONE[it] for it in order]) for name, order in (("the second", (0, 1)), ("the first", (1, 0)), ("both", (1, 1)))),
    paged("no wanted cut", Run(INDEXES.entries, 4, cuts="flush", first=0, last=1), PROGRAMS[:2], CHECKERS[:2]),
]
