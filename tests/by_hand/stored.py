#!/usr/bin/env python3
"""Writes the texts that are stored of the designs of examples/: their reports, their cases with any number of losses, why they fail and why
these cases do, their cures, by images and by cases, and an image of each wrong version in words; and the reports of the databases and the
file systems of examples/checkers, which take a quarter of an hour. All are the model's; the rows compare them with what the program prints.

    python3 tests/by_hand/stored.py

It prints the names of the files whose text was another. Pages, and texts of other runs, it doesn't write.
"""
import sys

sys.dont_write_bytecode = True

import rooms

rooms.enter()

from cases_model import cases
from cure_cases_model import cure_cases
from cure_model import cure
from designs import DESIGNS, EXAMPLES, EXPLAINED, IN_WORDS, checker_of
from model import explored, shown
from rows import whole_formats
from why_model import case_causes, causes


def texts():
    """The names of the files, and their texts."""
    for which, run in DESIGNS.items():
        checkers = [checker_of(which)]
        yield f"{which}.report", explored(run, checkers)
        yield f"{which}.cases", cases(run, checkers)
        yield f"{which}.why_cases", case_causes(run, checkers)
        yield f"{which}.cure", cure(run, checkers)
        yield f"{which}.cure_cases", cure_cases(run, checkers)
        yield f"{which}.why", causes(EXPLAINED[which], checkers)
        if which in IN_WORDS:
            yield f"{which}.show", shown(run, list(run.images())[IN_WORDS[which]])
    yield from whole_formats.texts()


def main():
    for name, text in texts():
        path = EXAMPLES / name
        if not path.exists() or path.read_text() != text:
            path.write_text(text)
            print(name)


if __name__ == "__main__":
    main()
