"""Why cases fail: what `why --bound any` prints of many logs, compared with the model (why_model.py), and of the designs of examples/; and
what it refuses (docs/OUTPUT.md, 'The text of `why`'; docs/REFUSALS.md)."""
from dataclasses import replace

from cases_model import ANY, Losses, status
from designs import DESIGNS, EXAMPLES, checker_of, data, folder_of
from designs import LOGS as STORED
from model import Checker, Run
from notation import FUA, M, W, explore, files, lines, program, refused
from why_model import case_causes

from rows.cases import BOTH, FILES, GOOD, IN_ORDER, INDEXED, INDEXES, NARROW, NARROW_CHECKERS, ORDERED, READS_THREE, SIXTY, TABLE, ZEROS, indexed, runs, words_of
from rows.modelled import CHECKERS, PROGRAMS


def why(name, run, programs, checkers, losses=ANY, more="", text=None):
    """A row of a run, by the model where no text is given."""
    text = case_causes(run, checkers, losses) if text is None else text
    options = f"{words_of(run, losses)}{more}"
    row = explore(f"why of cases: {name}, {options}", options, run.recorded, programs, text, status(text))
    row = replace(row, words=row.words.replace("explore ", "why ", 1))
    return replace(row, files={**row.files, "base": run.base}) if run.base else row


def stored(which):
    """A design of examples/ by its file: the text that is stored, which is the model's."""
    run = DESIGNS[which]
    text = case_causes(run, [checker_of(which)])
    assert text.encode() == data(EXAMPLES / f"{which}.why_cases"), f"{which}.why_cases isn't the model's"
    row = explore(f"why of cases: {which}, by its file", words_of(run, ANY), data(STORED / f"{which}.log"), data(EXAMPLES / f"{folder_of(which)}/checker.bpf"), text, status(text))
    return replace(row, words=row.words.replace("explore ", "why ", 1))


def alone(number, run):
    """Checkers that look at a few sectors of many, all in one run."""
    made = [(program(text), Checker(about, judge)) for text, about, judge in NARROW_CHECKERS.values()]
    return [it[0] for it in made], [it[1] for it in made], [ANY, Losses(None, 2)][number % 2], Run(run.recorded, run.sectors, ["all", run.cuts][number % 2], run.bound, run.tears, run.by)


def narrow():
    for number, (name, run) in enumerate(NARROW.items()):
        programs, checkers, losses, run = alone(number, run)
        yield why(name, run, programs, checkers, losses)


# Texts that are written down


def written(name, options, entries, programs, text):
    """A row whose text is written down, without its first line."""
    text = "crash why cases 1\n" + lines(text)
    row = explore(f"why of cases: {name}, {options}", f"--sectors 4 {options}", entries, programs, text, status(text))
    return replace(row, words=row.words.replace("explore ", "why ", 1))


WRITTEN = [
    # what is kept is at risk; else the last entry of the window is there: one with FUA that has ended, and a mark
    written(
        "a write with FUA, in flight and ended",
        "--bound any",
        [W(0, 1, 0xAA), W(1, 1, 0xBB, FUA), W(3, 1, 1), M("m")],
        IN_ORDER,
        """
        sectors 4 entries 4 cuts all bound any tears no
        program 0 slots 12 budget 10
        cuts 3 cases 7 failing 3 torn beyond 0 lost beyond 0 complete
        program 0 failing 3 uncured 0
        flush before 1 from 1 failing 3
        cut 2 program 0 failing 1
        case 1 lost 0.0 while 1.0 was kept: answer 1 codes 7, flush 1..1
        cut 3 program 0 failing 1
        case 1 lost 0.0 while entry 1 was there: answer 1 codes 7, flush 1..1
        cut 4 program 0 failing 1
        case 1 lost 0.0 while entry 3 was there: answer 1 codes 7, flush 1..3
        """,
    ),
    written(
        "two writes, one lost, and both are looked at",
        "--bound any --at-most 1",
        BOTH,
        ZEROS,
        """
        sectors 4 entries 2 cuts all bound any tears no at-most 1
        program 0 slots 7 budget 7
        cuts 3 cases 6 failing 5 torn beyond 0 lost beyond 1
        program 0 failing 5 uncured 4
        flush before 1 from 1 failing 1
        cut 0 program 0 failing 1
        case 0 at cut 0, with nothing lost: answer 2 codes -, flush none
        cut 1 program 0 failing 2
        case 0 at cut 1, with nothing lost: answer 1 codes -, flush none
        case 1 at cut 0, with nothing lost: answer 2 codes -, flush none
        cut 2 program 0 failing 2
        case 1 at cut 1, with nothing lost: answer 1 codes -, flush none
        case 2 lost 0.0 while 1.0 was kept: answer 1 codes -, flush 1..1
        """,
    ),
    written(
        "no case fails",
        "--bound any --flush 1 --from 3 --to 3",
        ORDERED,
        IN_ORDER,
        """
        sectors 4 entries 4 cuts all bound any tears no flush 1 from 3 to 3
        program 0 slots 12 budget 10
        cuts 1 cases 2 failing 0 torn beyond 0 lost beyond 0 of these cuts
        program 0 failing 0 uncured 0
        """,
    ),
]

# What is refused, and at which place
REFUSED = {
    "--torn 1": 20,
    "--at-most 1": 21,
    "--bound any --torn 1": 20,
    "--bound any --tears --torn 4": 20,
    "--bound any --at-most 65": 21,
    "--bound any --cache 1": 4,
    "--bound any --workers 65": 3,
}

ROWS = [
    *(why(name, run, checker[0], [checker[1]]) for name, run, checker, _count, _failing in TABLE),
    *map(stored, DESIGNS),
    *WRITTEN,
    *(why(name, run, PROGRAMS, CHECKERS, losses) for name, run, losses in runs()),
    *narrow(),
    why("60 writes in flight, of which three are looked at", SIXTY, READS_THREE[0], [READS_THREE[1]]),
    why("strays", INDEXES, program(INDEXED), [Checker("slots 9 budget 7 guards 1", indexed("stray at slot 7"))], Losses(2, None), " --guards"),
    *(refused(f"why of cases: refused, {words}", f"why log p0 --sectors 4 {words}", FILES, f"refused 13 at {place}") for words, place in REFUSED.items()),
    refused("why of cases: no program", "why log p0 --sectors 4 --bound any", files(BOTH), "refused 14 at 1"),
    refused("why of cases: nine programs", f"why log {'p0 ' * 9}--sectors 4 --bound any", files(BOTH, GOOD), "refused 13 at 6"),
]
