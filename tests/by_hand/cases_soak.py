#!/usr/bin/env python3
"""Compares what the built program says of every loss of many random logs, by `explore --bound any` and `why --bound any`, with the models,
to the byte.

    python3 tests/by_hand/cases_soak.py [--runs N] [--seed S] [--only NUMBER] [PROGRAM]

PROGRAM is as in run.py; N is 2,000 where it isn't given, S is 1. A run has a log of entries of every kind, of which writes differ by
pieces, what the device held before, one or two checkers, and options picked at random: `--tears` and `--torn`, `--at-most`, `--cuts`,
`--from` and `--to`, `--by`, `--flush`, `--base`, `--checked`, `--guards` and `--first`. It is expected that the program prints the text of
cases_model.py, or of why_model.py, ends with status 1 exactly where a case fails, and says nothing else but notes.

A checker looks at a few sectors, and at which ones hangs on what it found: by loads, by `zero`, `mix`, `same` and `copy`, in turns of
`again`, by the epoch and the marks, and at addresses that are made of numbers. What it comes to is worked out by machine_model.py. Some
end in a fault, stray, or spend their steps.

Each run is made of its number and the seed alone. One that isn't as expected is printed, and `--only NUMBER` makes it again and leaves
its files in the folder cases_soak. The last line is as in run.py. It takes some minutes, and is no part of the gate.
"""
import random
import subprocess
import sys
from pathlib import Path

sys.dont_write_bytecode = True

import rooms

rooms.enter()

from cases_model import Losses, cases, first_case, some_entry, status
from footprint_soak import end_of_checker, look
from machine_model import judged
from model import Checker, Run
from notation import log
from parts_model import number_of
from soaking import Soak, options, run_all
from why_model import case_causes

LIMIT = 120

# How often a checker may be run on images of a run by the model.
MOST_RUNS = 1_500


class TooLong(Exception):
    """A run has more cases than the model is to make."""


def turns(chance, sectors, label):
    """A loop that looks at one sector after the other, and may end where it finds something. r6 has what was found before."""
    helper, most = chance.choice([5, 5, 6]), chance.randint(1, sectors + 1)
    text = f"mov64 r8, {chance.randrange(sectors)}\nturn{label}:\nmov64 r1, {most}\ncall 3\njeq r0, 0, end{label}\nmov64 r1, r8\ncall {helper}\n"
    text += "mul64 r6, 5\nadd64 r6, r0\nadd64 r8, 1\n"
    if chance.random() < 0.5:
        text += f"mov64 r1, r6\nmod64 r1, {chance.randint(2, 4)}\njeq r1, {chance.randint(0, 1)}, end{label}\n"
    return f"{text}ja turn{label}\nend{label}:\nmov64 r0, 1\n"


def some_checker(chance, sectors, by_number):
    """A checker that goes on or ends by what it finds."""
    text = "mov64 r7, r1\nmov64 r6, 0\n"
    for label in range(chance.randint(1, 4)):
        text += turns(chance, sectors, label) if chance.random() < 0.25 else look(chance, sectors, by_number)
        text += f"mul64 r6, {chance.choice([1, 3, 7])}\nadd64 r6, r0\n"
        if chance.random() < 0.6:
            text += f"mov64 r0, r6\nmod64 r0, {chance.randint(2, 5)}\njne r0, {chance.randint(0, 2)}, +2\nmov64 r0, 0\nexit\n"
    return text + end_of_checker(chance, 0.3 * by_number, ["ldxb r0, [r0+0]", "stb [r7+0], 1", "mov64 r10, 1"], [2, 3, 3, 50])


def some_run(chance):
    """A run of a random log with random options."""
    sectors, values = chance.choice([2, 3, 4, 8, 16]), chance.sample(range(256), chance.choice([2, 3]))
    entries = [some_entry(chance, sectors, values) for _ in range(chance.choice([0, 1, 3, 5, 7, 9, 12]))]
    cut = chance.randrange(len(entries) + 1)
    flush = tuple(chance.randrange(len(entries)) for _ in range(chance.choice([0, 0, 0, 1, 2]) if entries else 0))
    first, last = chance.choice([(None, None), (None, None), (None, None), (cut, None), (None, cut), (cut, len(entries)), (cut, cut)])
    cuts, by = chance.choice(["all", "all", "all", "flush", "mark"]), chance.choice(["sector", "write"])
    base = chance.choice([b"", b"", bytes([values[0]]) * 700, bytes([values[-1]]) * 1024])
    return Run(entries, sectors, cuts, 1, chance.random() < 0.4, by, flush, first, last, base)


class CasesSoak(Soak):
    """A soak that also counts the texts with failing cases, and the cases."""

    def __init__(self, program, folder):
        super().__init__(program, folder)
        self.failing = self.cases = 0

    def called(self, words):
        done = subprocess.run([self.program, *words], cwd=self.folder, capture_output=True, timeout=LIMIT)
        return done.returncode, done.stdout, done.stderr.decode()

    def about(self, name, count, sectors, limit, guards):
        """What the text says of a program, or None where it isn't accepted."""
        if limit is not None:
            return f"slots {count} limit {limit}"
        ended, out, _error = self.called(["verify", name, "--sectors", str(sectors), *(["--guards"] if guards else [])])
        return None if ended else f"slots {count} {out.decode().strip().removeprefix('accepted ')}"

    def differs(self, number, seed):
        """What isn't as the model says, or None where the run is too long for it or a program isn't accepted."""
        chance = random.Random(f"{seed} {number}")
        run, losses = some_run(chance), Losses(None, chance.choice([None, None, None, 1, 2, 3, 64]))
        if run.tears:
            losses = Losses(chance.choice([None, 1, 2, 3]), losses.most)
        limit, guards = chance.choice([(None, False), (None, False), (chance.choice([9, 30, 200, 1000]), False), (None, True)])
        files, checkers, left = [], [], [MOST_RUNS]
        for place in range(chance.choice([1, 1, 2])):
            made = self.assembler.assemble(some_checker(chance, run.sectors, limit is not None or guards))
            Path(self.folder, f"p{place}").write_bytes(made)
            files.append(f"p{place}")
            checkers.append(Checker(self.about(f"p{place}", len(made) // 8, run.sectors, limit, guards), self.judge(made, limit, guards, left)))
        if any(checker.about is None for checker in checkers):
            return None
        Path(self.folder, "log").write_bytes(log(run.recorded))
        Path(self.folder, "base").write_bytes(run.base)
        words = ["log", *files, *run.options().replace("--bound 1", losses.options()).split()]
        words += (["--checked", str(limit)] if limit is not None else []) + ["--guards"] * guards + chance.choice([[], [], ["--workers", "4"]])
        is_first = chance.random() < 0.3
        is_why = not is_first and chance.random() < 0.4
        try:
            inputs = number_of([it.read_bytes() for it in (Path(self.folder, name) for name in ("log", *files))])
            text = (first_case if is_first else cases)(run, checkers, losses, inputs)
            text = case_causes(run, checkers, losses) if is_why else text
        except TooLong:
            return None
        words += ["--first"] * is_first
        words.insert(0, "why" if is_why else "explore")
        self.failing, self.cases = self.failing + status(text), self.cases + MOST_RUNS - left[0]
        ended, out, error = self.called(words)
        quiet = all(line.startswith("note: ") for line in error.splitlines())
        return [] if (ended, out, quiet) == (status(text), text.encode(), True) else [" ".join(words)]

    @staticmethod
    def judge(made, limit, guards, left):
        """A program as the model sees it, which may be run so often."""

        def of(view):
            left[0] -= 1
            if left[0] < 0:
                raise TooLong
            return judged(made, view, limit, guards)

        return of

    def said(self):
        return f", {self.failing} texts with failing cases, {self.cases} images judged"


def main():
    given = options("Compares texts of cases with the model.", 2_000).parse_args()
    return run_all(given, "cases_soak", CasesSoak)


if __name__ == "__main__":
    sys.exit(main())
