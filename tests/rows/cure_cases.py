"""Where flushes are missing whatever was lost: what `cure --bound any` prints of the designs of examples/ and of many logs, compared with
the model (cure_cases_model.py); and what it refuses (docs/OUTPUT.md, 'The text of `cure`'; docs/REFUSALS.md)."""
from dataclasses import replace

from cases_model import ANY, Losses
from cure_cases_model import cure_cases
from designs import DESIGNS, EXAMPLES, checker_of, data, folder_of
from designs import LOGS as STORED
from model import Checker, Run
from notation import explore, lines, program, refused

from rows.cases import FILES, INDEXED, INDEXES, NARROW, NARROW_CHECKERS, TABLE, indexed, runs, words_of
from rows.modelled import CHECKERS, PROGRAMS

TITLE = "crash cure cases 1\n"


def status(text):
    """The exit status beside a text: 1 where a program fails on a case of the first run."""
    told = [line for line in text.splitlines() if line.startswith("program ") and " uncured " in line]
    return 0 if all(" failing 0 " in line for line in told) else 1


def cure(name, run, programs, checkers, losses=ANY, more=""):
    """A row of a run, by the model."""
    text, options = cure_cases(run, checkers, losses), f"{words_of(run, losses)}{more}"
    row = explore(f"cure by cases: {name}, {options}", options, run.recorded, programs, text, status(text))
    row = replace(row, words=row.words.replace("explore ", "cure ", 1))
    return replace(row, files={**row.files, "base": run.base}) if run.base else row


def design(which, more=""):
    """A design of examples/ by its file, by the model."""
    run = DESIGNS[which]
    text = cure_cases(run, [checker_of(which)])
    assert text.encode() == data(EXAMPLES / f"{which}.cure_cases"), f"{which}.cure_cases isn't the model's"
    row = explore(f"cure by cases: {which}, by its file{more}", words_of(run, ANY) + more, data(STORED / f"{which}.log"), data(EXAMPLES / f"{folder_of(which)}/checker.bpf"), text, status(text))
    return replace(row, words=row.words.replace("explore ", "cure ", 1))


def written(which, text):
    """A design whose text is written down, without its first line."""
    row = design(which)
    text = TITLE + lines(text)
    return replace(row, name=f"{row.name}, as it is written down", out=text, status=status(text))


WRITTEN = [
    written(
        "two_slots/wrong",
        """
        sectors 4 entries 12 cuts all bound any tears yes torn 1
        program 0 slots 39 budget 87
        program 0 failing 45 uncured 0
        round 1 flush before 1 from 1 failing 15
        round 1 flush before 5 from 5 failing 15
        round 1 flush before 9 from 9 failing 15
        cuts 10 cases 19 failing 0 torn beyond 0 lost beyond 0 complete
        """,
    ),
    # the header stands before its records: no flush helps, and the window of one image alone (cure.py) is none of its case
    written(
        "journal/wrong",
        """
        sectors 8 entries 10 cuts all bound any tears no
        program 0 slots 33 budget 144
        program 0 failing 3 uncured 3
        no flush cures cut 3 epoch 0 marks 0 program 0 case 1 answer 1 codes 2 choice 2.0:drop kept 0.0,1.0 free 0 flush none
        cuts 6 cases 11 failing 3 torn beyond 0 lost beyond 0 complete
        """,
    ),
    written(
        "tree/wrong",
        """
        sectors 8 entries 16 cuts all bound any tears no
        program 0 slots 51 budget 65
        program 0 failing 7 uncured 0
        round 1 flush before 3 from 3 failing 3
        round 1 flush before 8 from 8 failing 2
        round 1 flush before 13 from 13 failing 2
        cuts 10 cases 13 failing 0 torn beyond 0 lost beyond 0 complete
        """,
    ),
]


def narrow():
    """Checkers that look at a few sectors of many, all in one run."""
    made = [(program(text), Checker(about, judge)) for text, about, judge in NARROW_CHECKERS.values()]
    for number, (name, run) in enumerate(NARROW.items()):
        own = Run(run.recorded, run.sectors, ["all", run.cuts][number % 2], run.bound, run.tears, run.by)
        yield cure(name, own, [it[0] for it in made], [it[1] for it in made], [ANY, Losses(None, 2)][number % 2])


ROWS = [
    *WRITTEN,
    *map(design, DESIGNS),
    *(design(which, " --workers 4") for which in ("two_slots/wrong", "double_write/wrong")),
    *(cure(name, run, checker[0], [checker[1]]) for name, run, checker, _count, _failing in TABLE),
    *(cure(name, run, PROGRAMS, CHECKERS, losses) for name, run, losses in runs()),
    *narrow(),
    cure("strays", INDEXES, program(INDEXED), [Checker("slots 9 budget 7 guards 1", indexed("stray at slot 7"))], Losses(2, None), " --guards"),
    refused("cure by cases: a cache", "cure log p0 --sectors 4 --bound any --cache 1", FILES, "refused 13 at 4"),
]
