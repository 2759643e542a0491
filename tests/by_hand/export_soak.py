#!/usr/bin/env python3
"""Compares what `export` of the built program says of many random small logs with the model.

    python3 tests/by_hand/export_soak.py [--runs N] [--seed S] [PROGRAM]

PROGRAM is as in run.py; N is 1,000 where it isn't given, S is 1. A run has a log of at most eight entries of every kind over a
device of at most four sectors, few bytes, so that many images are the same, and options picked at random. It is expected that
`export` prints what export_model.py says, to the byte, of all images and of a range of them, that a reader of it has each image,
and that it ends with status 0 and says nothing else but notes.

Each run is made of its number and the seed alone. One that isn't as expected is printed, and `--only NUMBER` makes it again and
leaves its files in the folder export_soak. The last line is as in run.py. It takes some minutes, and is no part of the gate.
"""
import random
import subprocess
import sys
from pathlib import Path

sys.dont_write_bytecode = True

import rooms

rooms.enter()

from export_model import exported, faults, some_range, some_run
from notation import log
from soaking import Soak, options, run_all

LIMIT = 60
MOST_IMAGES = 800


class ExportSoak(Soak):
    def __init__(self, program, folder):
        self.program, self.folder = program, folder

    def called(self, words):
        """Whether the program ended as it should, and what it printed."""
        done = subprocess.run([self.program, *words], cwd=self.folder, capture_output=True, timeout=LIMIT)
        quiet = all(line.startswith("note: ") for line in done.stderr.decode().splitlines())
        return (done.returncode, quiet) == (0, True), done.stdout

    def differs(self, number, seed):
        """What isn't as expected, or None where the run has too many images to be made here."""
        chance = random.Random(f"{seed} {number}")
        run = some_run(chance, most=8)
        count = sum(1 for _image in run.images())
        if count > MOST_IMAGES:
            return None
        Path(self.folder, "log").write_bytes(log(run.recorded))
        Path(self.folder, "base").write_bytes(run.base)
        first, last = some_range(chance, count)
        ranges = [([], 0, count)] + ([(["--images", f"{first}..{last}"], first, last)] if first < last else [])
        found = []
        for more, start, end in ranges:
            words = ["export", "log", *run.options().split(), *more]
            ended, text = self.called(words)
            if not ended or text != exported(run, start, end) or faults(run, text, start, end):
                found.append(" ".join(words))
        return found


def main():
    given = options("Compares the exports of random runs with the model.", 1_000).parse_args()
    return run_all(given, "export_soak", ExportSoak)


if __name__ == "__main__":
    sys.exit(main())
