#!/usr/bin/env python3
"""Compares runs in which outcomes are told by footprints with runs in which each image is judged, on random logs.

    python3 tests/by_hand/footprint_soak.py [--runs N] [--seed S] [--before PROGRAM] [PROGRAM]

PROGRAM is as in run.py; N is 1,000 where it isn't given, S is 1. A run has a log whose cuts have 64 images and more, one to three
checkers, and options picked at random. Beside a cache nothing is told by footprints, so `explore` with `--cache` judges each
image; with `--before` a program of earlier is asked too. All have to print the same bytes and end with the same status.

A checker looks at a few sectors, and at which ones it looks hangs on what it found: by `sector` and a load, by `zero`, `mix`, `same`
and `copy`, by the epoch and the marks, and, with `--checked`, by an address that is made of a number. Some end in a fault, and some
spend their steps.

Each run is made of its number and the seed alone. One that isn't as expected is printed, and `--only NUMBER` makes it again and
leaves its files in the folder footprint_soak. The last line is as in run.py. It takes some minutes, and is no part of the gate.
"""
import random
import subprocess
import sys
from pathlib import Path

sys.dont_write_bytecode = True

import rooms

rooms.enter()

from notation import DISCARD, FLUSH, FUA, MARK, Entry, W, log
from soaking import Soak, options, run_all

LIMIT = 120


def entry(chance, sectors, values):
    """An entry of a device of that many sectors, mostly a write of one of a few values."""
    kind = chance.random()
    if kind < 0.03:
        return Entry(flags=MARK, text=b"m")
    if kind < 0.06:
        return Entry(flags=FLUSH)
    count = min(sectors, chance.choice([1, 1, 1, 1, 2, 3]))
    at = chance.randrange(sectors - count + 1)
    if kind < 0.12:
        return Entry(at, count, DISCARD)
    return W(at, count, chance.choice(values), (chance.random() < 0.03) * FUA)


def look(chance, sectors, by_number):
    """Instructions that leave in r0 what a look at the device finds. r6 has what was found before, r7 the context."""
    at, place = chance.randrange(sectors), chance.choice([0, 64, 448, 511])
    named = f"mov64 r1, r6\nmod64 r1, {sectors + 1}\n"
    found = f"call 1\njne r0, 0, +2\nmov64 r0, 0\nja +1\nldxb r0, [r0+{place}]\n"
    ways = [
        f"mov64 r1, {at}\n{found}",
        f"mov64 r1, {at}\n{found}",
        f"{named}{found}",
        f"mov64 r1, {at}\ncall 5\n",
        f"{named}call 5\n",
        f"{named}call 6\n",
        f"{named}mov64 r2, {at}\ncall 7\n",
        f"mov64 r1, {512 * at + chance.choice([0, 100, 470, 500])}\nmov64 r2, r10\nsub64 r2, 64\nmov64 r3, 48\ncall 2\nldxb r0, [r10-{chance.choice([64, 17])}]\n",
        "ldxdw r0, [r7+8]\n",
        "ldxdw r0, [r7+16]\n",
    ]
    if by_number:
        load = chance.choice(["ldxb", "ldxh", "ldxdw"])
        ways += [f"lddw r1, {(3 << 32) + 512 * at + place}\n{load} r0, [r1+{chance.choice([0, 0, 1])}]\n"] * 3
        ways += [f"mov64 r1, r6\nmod64 r1, {600 * sectors}\nlddw r2, {3 << 32}\nadd64 r1, r2\nldxb r0, [r1+0]\n"] * 2
    return chance.choice(ways)


def checker(chance, sectors, by_number):
    """A checker that goes on or ends by what it finds."""
    text = "mov64 r7, r1\nmov64 r6, 0\n"
    for _ in range(chance.randint(1, 5)):
        text += look(chance, sectors, by_number) + f"mul64 r6, {chance.choice([1, 3, 7])}\nadd64 r6, r0\n"
        if chance.random() < 0.5:
            text += f"mov64 r0, r6\nmod64 r0, {chance.randint(2, 9)}\njne r0, {chance.randint(0, 2)}, +2\nmov64 r0, 0\nexit\n"
    return text + end_of_checker(chance, 0.2 * by_number, ["ja -2", "ldxb r0, [r0+0]", "mov64 r0, r5"], [2, 3, 50, 1000])


def end_of_checker(chance, often, faults, divisors):
    """The end of a checker: at times a code, as often as that one of these faults, and an answer by what was found."""
    text = "mov64 r1, r6\ncall 4\n" if chance.random() < 0.3 else ""
    if often and chance.random() < often:
        text += f"mov64 r0, r6\nmod64 r0, 5\njne r0, 0, +1\n{chance.choice(faults)}\n"
    good = chance.choice(divisors)
    return text + f"mov64 r0, r6\nmod64 r0, {good}\njne r0, 0, +2\nmov64 r0, {chance.choice([1, 9, -1])}\nexit\nmov64 r0, 0\nexit\n"


class FootprintSoak(Soak):
    """A soak of two programs: the one under test and, where there is one, that of earlier."""

    def __init__(self, program, before, folder):
        super().__init__(program, folder)
        self.before = before

    def called(self, program, words):
        done = subprocess.run([program, *words], cwd=self.folder, capture_output=True, timeout=LIMIT)
        return done.returncode, done.stdout, [line for line in done.stderr.splitlines() if b"--cache" not in line]

    def differs(self, number, seed):
        """The calls that don't answer as the first one, or None where the run is refused."""
        chance = random.Random(f"{seed} {number}")
        sectors = chance.choice([3, 8, 16, 64])
        values = chance.sample(range(256), chance.choice([2, 3, 8]))
        entries = [entry(chance, sectors, values) for _ in range(chance.choice([12, 16, 24]))]
        by_number = chance.random() < 0.3
        Path(self.folder, "log").write_bytes(log(entries))
        files = []
        for place in range(chance.choice([1, 1, 2, 3])):
            code = self.assembler.assemble(checker(chance, sectors, by_number))
            Path(self.folder, f"p{place}").write_bytes(code)
            files.append(f"p{place}")
        bound = chance.choice([1, 2, 2, 3]) if len(entries) < 20 else chance.choice([1, 2])
        options = f"--sectors {sectors} --bound {bound} --cuts {chance.choice(['all', 'flush', 'flush'])}"
        options += " --tears" * (chance.random() < 0.3 and bound < 3) + " --by write" * (chance.random() < 0.2)
        options += " --checked 200" * (by_number or chance.random() < 0.1) + " --first" * (chance.random() < 0.1)
        words = ["explore", "log", *files, *options.split()]
        wanted = self.called(self.program, [*words, "--cache", "64"])
        if wanted[0] == 2:
            return None
        ways = [(self.program, []), (self.program, ["--workers", "3"]), *([(self.before, [])] if self.before else [])]
        return [" ".join([*words, *more]) for program, more in ways if self.called(program, [*words, *more]) != wanted]


def main():
    parser = options("Compares runs by footprints with runs that judge each image.", 1_000)
    parser.add_argument("--before")
    given = parser.parse_args()
    before = str(Path(given.before).resolve()) if given.before else None
    return run_all(given, "footprint_soak", lambda program, folder: FootprintSoak(program, before, folder))


if __name__ == "__main__":
    sys.exit(main())
