"""Which options find what: the table of docs/CRASH-MODEL.md, each cell once more by a run of the program. A cell says `found` where
an image or a case fails, and `-` where none does; the last row has the number of images, or cases, of all runs of a column, by the models."""
import re

from cases_model import ANY, cases
from designs import DESIGNS, EXAMPLES, LOGS, checker_of, data, folder_of
from model import Run
from notation import TOP, Something, explore

from rows.limits import LONG_RUN
from rows.modelled import count

HEADING = "## Which options find what\n"


def cells(line):
    return [it.strip() for it in line.strip("|\n").split("|")]


def table():
    """The table as lists of cells, without the line of dashes."""
    text = (TOP / "docs/CRASH-MODEL.md").read_text()
    section = text[text.index(HEADING) + len(HEADING) :].split("\n## ")[0]
    lines = [cells(line) for line in section.splitlines() if line.startswith("|")]
    return [lines[0], *lines[2:]]


def options(cell):
    """The options at the head of a column, as words and as those of the model."""
    words = "" if cell == "default" else cell.strip("`")
    bound = 2 if "--bound 2" in words else 1
    return words, dict(bound=bound, tears="--tears" in words, by="write" if "--by write" in words else "sector")


def example(cell):
    """The name of an example, as `tree/wrong`."""
    return re.fullmatch(r"`(\w+/\w+)`", cell).group(1)


def cell_row(which, words, cell):
    """A run of a cell."""
    assert cell in ("found", "-"), f"{which}, {words}: {cell}"
    design = DESIGNS[which]
    return explore(
        f"options: {which}, {words or 'default'}",
        f"--sectors {design.sectors} {words}",
        data(LOGS / f"{which}.log"),
        data(EXAMPLES / f"{folder_of(which)}/checker.bpf"),
        Something(),
        1 if cell == "found" else 0,
        LONG_RUN,
    )


HEAD, *BUGS, LAST = table()
COLUMNS = [options(cell) for cell in HEAD[2:]]
WHICH = [example(row[1]) for row in BUGS]

# each wrong example is in the table once
assert sorted(WHICH) == sorted(which for which in DESIGNS if not which.endswith("right"))



def total(words, given):
    """How many images all runs of a column have, or cases."""
    runs = {which: Run(DESIGNS[which].recorded, DESIGNS[which].sectors, **given) for which in WHICH}
    if "--bound any" not in words:
        return sum(map(count, runs.values()))
    return sum(int(cases(run, [checker_of(which)], ANY).split(" cases ")[-1].split()[0]) for which, run in runs.items())


for (words, given), cell in zip(COLUMNS, LAST[2:]):
    assert cell == f"{total(words, given):,}", f"{words or 'default'}: not {cell} images or cases"

ROWS = [
    cell_row(which, words, cell)
    for which, row in zip(WHICH, BUGS)
    for (words, _given), cell in zip(COLUMNS, row[2:])
]
