"""Why checkers fail: what `why` prints of many logs, compared with the model (why_model.py), and of the designs of examples/."""
from dataclasses import replace

from designs import EXAMPLES, EXPLAINED, JOURNAL_RIGHT, JOURNAL_WRONG, JUDGES, NEW, data, folder_of, pages, two_slots
import model
from model import Checker, Run
from notation import FLUSH, Long, explore
from why_model import causes

from rows.modelled import CHECKERS, PROGRAMS, any_fails, narrowed, runs


# How many images a run may have whose groups the model is to find.
FEW = 700


def why(name, options, entries, programs, out, status):
    """A row of `why`."""
    row = explore(name, options, entries, programs, out, status)
    return replace(row, words=row.words.replace("explore ", "why ", 1))


def modelled(name, run):
    """Why two programs fail on the images of a run."""
    status = 1 if any_fails(run) else 0
    return why(f"why: {name}", run.options(), run.recorded, PROGRAMS[:2], Long(lambda: causes(run, CHECKERS[:2])), status)


def design(which, run, about, judge, status):
    """Why the checker of a design fails: what is stored, which is the model's."""
    wanted = causes(run, [Checker(about, judge)]).encode()
    assert wanted == data(EXAMPLES / f"{which}.why"), f"{which}.why isn't the model's"
    folder = which.split("/")[0]
    return why(f"why: {which}", run.options(), run.recorded, data(EXAMPLES / f"{folder}/checker.bpf"), wanted, status)


SLOTS = ("slots 39 budget 87", model.two_slots)
RECORDS = ("slots 33 budget 144", model.journal)
PAGES = ("slots 53 budget 1026", model.pages)
TWO_TORN = dict(bound=2, tears=True)

ROWS = [
    design("two_slots/right", Run(two_slots(FLUSH), 4, **TWO_TORN), *SLOTS, 0),
    design("two_slots/wrong", Run(two_slots(0), 4, **TWO_TORN), *SLOTS, 1),
    design("journal/right", Run(JOURNAL_RIGHT, 8, **TWO_TORN), *RECORDS, 0),
    design("journal/wrong", Run(JOURNAL_WRONG, 8), *RECORDS, 1),
    design("pages/right", Run(pages(FLUSH), 24, by="write", **TWO_TORN), *PAGES, 0),
    design("pages/wrong", Run(pages(0), 24, by="write", **TWO_TORN), *PAGES, 1),
    *(design(which, EXPLAINED[which], *JUDGES[folder_of(which)], 0 if which.endswith("right") else 1) for which in NEW),
    why(
        "why: journal, wrong, two lost or torn, by 4 workers",
        f"{Run(JOURNAL_WRONG, 8, **TWO_TORN).options()} --workers 4 --cache 100",
        JOURNAL_WRONG,
        data(EXAMPLES / "journal/checker.bpf"),
        Long(lambda: causes(Run(JOURNAL_WRONG, 8, **TWO_TORN), [Checker(*RECORDS)])),
        1,
    ),
    *(modelled(name, run) for name, run in runs() if sum(1 for _image in run.images()) <= FEW),
    *(modelled(name, run) for name, run in list(narrowed())[::20] if sum(1 for _image in run.images()) <= FEW),
]
