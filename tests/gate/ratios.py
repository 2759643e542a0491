#!/usr/bin/env python3
"""Tests that the program isn't many times as slow as it is, by ratios of processor time of its own runs.

    python3 tests/gate/ratios.py [PROGRAM]

PROGRAM is crates/crashbpf/out/crashbpf below the top of the repository where it isn't given. No clause says that footprints are
used, or that the search of the verifier ends soon. What would stay proved without them is seen here alone:

    footprints  a run of which most images are told by footprints, beside one of the same log in which each image is judged. The
                two programs make as many steps on an image; one reads eight sectors of those that may be lost, the other all. The
                first has to take at most a tenth of the second. By the images that each judges it is a fiftieth.
    search      verifying programs of a few hundred slots in which numbers on the stack widen, beside a run of some million
                steps. Each may take twice as long as that run. It takes up to 1.3 times as long.

What counts is the least ratio of three turns, each of two runs one after the other, so no machine is too slow for it. It
prints a line for each ratio that is too great, and last `N passed, M failed`. It takes some seconds.
"""
# Seen to fail for planted bugs: footprints used at small cuts alone; a second operand at which the search doesn't look.
import math
import os
import resource
import subprocess
import sys
import tempfile
from pathlib import Path

sys.dont_write_bytecode = True

import rooms

rooms.enter()

from notation import TOP, F, W, log

TURNS = 3

# The most seconds of processor time that a run may take, some tenths of which are usual.
MOST = 20

# A loop that a program makes before it ends, so that its steps are what a run takes.
SPIN = "mov64 r1, {turns}\ncall 3\njeq r0, 0, +1\nja -4\nmov64 r0, 0\nexit\n"


def reading(sectors, turns):
    """A program that reads a byte of each of those sectors, makes that many turns, and answers 0."""
    return "".join(f"mov64 r1, {it}\ncall 1\njeq r0, 0, +1\nldxb r6, [r0+0]\n" for it in sectors) + SPIN.format(turns=turns)


# Two epochs of that many writes of sectors of their own: some thousand images with two of them lost.
UNITS, READ, JUDGED_TURNS = 48, 8, 20000
LOG = [*(W(it, 1, 1 + it) for it in range(UNITS)), F, *(W(it, 1, 101 + it) for it in range(UNITS))]
EXPLORE = f"--sectors {UNITS} --cuts flush --bound 2"

# How many turns the run makes beside which programs are verified.
TURNS_BESIDE = 1000000


class Runs:
    """The program, and a folder with the files of its runs."""

    def __init__(self, program, folder):
        self.program, self.folder = program, folder

    def assemble(self, name, text):
        Path(self.folder, "source").write_text(text)
        made = subprocess.run([self.program, "asm", "source"], cwd=self.folder, capture_output=True, check=True)
        Path(self.folder, name).write_bytes(made.stdout)

    def write(self):
        """Writes the log, the programs and the image."""
        Path(self.folder, "log").write_bytes(log(LOG))
        Path(self.folder, "image").write_bytes(bytes(512))
        self.assemble("some", reading(range(0, UNITS, UNITS // READ), JUDGED_TURNS))
        self.assemble("all", reading(range(UNITS), JUDGED_TURNS))
        self.assemble("spin", SPIN.format(turns=TURNS_BESIDE))
        for name, (kind, slots, numbers) in SEARCHES.items():
            words = [sys.executable, TOP / "bench/slow_programs.py", kind, str(slots), str(numbers), "no", name]
            subprocess.run(words, cwd=self.folder, check=True, capture_output=True)

    def took(self, words):
        """The processor time of a run, in seconds; without end where it takes more than MOST, or doesn't succeed."""
        before = resource.getrusage(resource.RUSAGE_CHILDREN)
        limit = ["sh", "-c", f'ulimit -t {MOST}; exec "$0" "$@"']
        ran = subprocess.run([*limit, self.program, *words.split()], cwd=self.folder, capture_output=True)
        after = resource.getrusage(resource.RUSAGE_CHILDREN)
        return after.ru_utime + after.ru_stime - before.ru_utime - before.ru_stime if ran.returncode == 0 else math.inf

    def ratio(self, first, second, most):
        """How many times as long the first run takes as the second one, at least, of some turns: no more than tell that it is at
        most that many."""
        least = math.inf
        for _turn in range(TURNS):
            took = self.took(first)
            least = min(least, took / self.took(second) if took < math.inf else took)
            if least <= most or took == math.inf:
                break
        return least


# Programs of bench/slow_programs.py: the kind, how many slots it has at most, and how many numbers widen.
SEARCHES = {
    "needed": ("needed", 400, 4),
    "spread": ("spread", 600, 4),
    "heads": ("heads", 600, 4),
    "ways": ("ways", 600, 4),
}

# What is measured: the two runs, and how many times as long the first may take as the second.
RATIOS = {
    "footprints": (f"explore log some {EXPLORE}", f"explore log all {EXPLORE}", 0.1),
    **{f"search, {name}": (f"verify {name} --sectors 64", "check spin image", 2.0) for name in SEARCHES},
}


def too_great(runs, name):
    """A sentence, where a ratio is greater than it may be."""
    first, second, most = RATIOS[name]
    ratio = runs.ratio(first, second, most)
    return [f"{name}: {ratio:.2f} times as long, and not {most} at most"] if ratio > most else []


def main(words):
    program = str(Path(words[0] if words else TOP / "crates/crashbpf/out/crashbpf").resolve())
    if len(words) > 1 or words[:1] in (["-h"], ["--help"]):
        sys.exit(__doc__)
    if not os.access(program, os.X_OK):
        sys.exit(f"there is no program {program}: `rt run` in crates/crashbpf builds it")
    with tempfile.TemporaryDirectory() as folder:
        runs = Runs(program, folder)
        runs.write()
        found = [it for name in RATIOS for it in too_great(runs, name)]
    for it in found:
        print(f"FAILED {it}")
    print(f"{len(RATIOS) - len(found)} passed, {len(found)} failed")
    return 1 if found else 0


if __name__ == "__main__":
    sys.exit(main(sys.argv[1:]))
