#!/usr/bin/env python3
"""Gives the built program random reports in place of programs, whole and damaged, and compares `why`, `page` and `cure` with the models.

    python3 tests/by_hand/report_soak.py [--runs N] [--seed S] [PROGRAM]

PROGRAM is as in run.py; N is 2,000 where it isn't given, S is 1. A run is one of cure_soak.py. Its report is that of checkers, or of a
program that is given images as files and ends in any way. Of each report the three tell what the models say, and of one of checkers `why`
and `page` tell what they tell of these. Then some of its bytes or lines are changed, left out or put in twice: the text is refused at the line
that the model says, or taken as the model takes it.

Each run is made of its number and the seed alone. One that isn't as expected is printed, and `--only NUMBER` makes it again and leaves
its files in the folder report_soak. The last line is as in run.py. It takes some minutes, and is no part of the gate.
"""
import random
import sys
from pathlib import Path

sys.dont_write_bytecode = True

import rooms

rooms.enter()

import cure_model
import report_model
from cure_soak import MOST_IMAGES, CureSoak, checker, some_run
from model import Checker, explored
from notation import log
from page_model import page, page_of_report
from soaking import options, run_all
from why_model import causes


def outside(chance, run):
    """The report of a program that is given images as files, which fails on some of them."""
    images, share = list(run.images()), chance.choice([0, 0.1, 0.5, 1])
    ends = [f"answer {chance.randint(1, 255)} codes -", f"signal {chance.randint(1, 64)}", "out of time"]
    lines = [f"image {it.number} cut {it.cut} program 0 {chance.choice(ends)} choice {it.choice()}\n" for it in images if chance.random() < share]
    head = explored(run, [])
    head = head[:head.index("\nimages ") + 1]
    return f"{head}program 0 outside fsck {{}}\n{''.join(lines)}images {len(images)} failing {len(lines)} lines {len(lines)}\n"


def damaged(chance, text):
    """The text with a byte or a line changed, left out or put in twice."""
    data, lines = bytearray(text.encode()), text.encode().splitlines(keepends=True)
    at, line = chance.randrange(len(data)), chance.randrange(len(lines))
    how = chance.randrange(6)
    if how == 0:
        data[at] = chance.randrange(256)
    elif how == 1:
        del data[at:]
    elif how == 2:
        data.insert(at, chance.randrange(32, 127))
    elif how == 3:
        data = b"".join([*lines[:line], *lines[line + 1:]])
    elif how == 4:
        data = b"".join([*lines[:line], lines[line], *lines[line:]])
    else:
        other = chance.randrange(len(lines))
        lines[line], lines[other] = lines[other], lines[line]
        data = b"".join(lines)
    return bytes(data)


# What each command tells of a report.
TELLS = {"why": report_model.causes, "page": page_of_report, "cure": report_model.places}


class ReportSoak(CureSoak):
    """Reports of random runs."""

    def told(self, run, data, command):
        """What a command is to tell of a text: status, standard output and the first line on standard error."""
        try:
            report = report_model.read(run, data)
        except report_model.Fault as fault:
            return 2, b"", f"refused 16 at {fault.args[0]}"
        return int(bool(report.lines)), TELLS[command](run, report).encode(), ""

    def differs(self, number, seed):
        """What isn't told as the model says, or None where the run has too many images to be made here."""
        chance = random.Random(f"{seed} {number}")
        run = some_run(chance)
        if sum(cure_model.images_at(run, cut) for cut in run.wanted_cuts()) > MOST_IMAGES:
            return None
        Path(self.folder, "log").write_bytes(log(run.recorded))
        checkers = [Checker("slots 6 budget 5", checker(chance, run.sectors)[1]) for _ in range(chance.choice([1, 1, 2]))]
        text = explored(run, checkers) if chance.random() < 0.5 else outside(chance, run)
        found = []
        for command, tell in {"why": causes, "page": page}.items():
            if "outside" not in text and TELLS[command](run, report_model.read(run, text.encode())) != tell(run, checkers):
                found.append(f"the model of {command}")
        for data in [text.encode(), *[damaged(chance, text) for _ in range(4)]]:
            Path(self.folder, "report").write_bytes(data)
            for command in TELLS:
                ended, out, error = self.called([command, "log", "--report", "report", *run.options().split()])
                said = [it for it in error.decode().splitlines() if not it.startswith("note: ")]
                if (ended, out, said[0] if said else "") != self.told(run, data, command):
                    found.append(f"{command} of {data!r}")
        return found


def main():
    given = options("Compares what is told of random reports with the model.", 2_000).parse_args()
    return run_all(given, "report_soak", ReportSoak)


if __name__ == "__main__":
    sys.exit(main())
