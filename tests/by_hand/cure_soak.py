#!/usr/bin/env python3
"""Compares what the built program says of many random small logs with the models: `explore`, `why`, `cure` and `page`.

    python3 tests/by_hand/cure_soak.py [--runs N] [--seed S] [PROGRAM]

PROGRAM is as in run.py; N is 2,000 where it isn't given, S is 1. A run has a log of at most nine entries of every kind (writes
that overlap, discards, flushes with and without data, FUA, marks, entries without sectors), one or two checkers that compare a
number made of some bytes, of the epoch and of the marks, and options picked at random. It is expected that the four commands
print what model.py, why_model.py, cure_model.py and page_model.py say, to the byte, end with status 1 exactly where an image
fails, and say nothing else but notes.

Each run is made of its number and the seed alone. One that isn't as expected is printed, and `--only NUMBER` makes it again and
leaves its files in the folder cure_soak. The last line is as in run.py. It takes some minutes, and is no part of the gate.
"""
import random
import subprocess
import sys
from pathlib import Path

sys.dont_write_bytecode = True

import rooms

rooms.enter()

import cure_model
from model import Checker, Run, explored
from notation import DISCARD, FLUSH, FUA, MARK, Entry, S, log
from page_model import page
from soaking import Soak, options, run_all
from why_model import causes

LIMIT = 60
MOST_IMAGES = 400


def entry(chance, sectors):
    """Any entry of a device of that many sectors."""
    kind = chance.random()
    if kind < 0.15:
        return Entry(flags=MARK, text=chance.choice([b"", b"commit 1", b"<&>\xff"]))
    if kind < 0.3:
        return Entry(flags=FLUSH | chance.choice([0, FUA]))
    count = min(sectors, chance.choice([0, 1, 1, 1, 2, 3]))
    at = chance.randrange(sectors - count + 1)
    flags = (chance.random() < 0.1) * FLUSH | (chance.random() < 0.2) * FUA
    if kind < 0.4:
        return Entry(at, count, DISCARD | flags)
    return S(at, b"".join(bytes([chance.choice([1, 1, 2, 3])]) * 512 for _ in range(count)), flags)


def source(chance, sectors):
    """What is taken into the number of a checker: its instructions, which leave it in r1, and its value on an image."""
    at, place = chance.randrange(sectors), chance.choice([0, 0, 64, 448, 511])
    byte = f"mov64 r1, {at}\ncall 1\njne r0, 0, +2\nmov64 r0, 0\nexit\nldxb r1, [r0+{place}]\n"
    return chance.choice([
        (byte, lambda image: image.sector(at)[place]),
        (byte, lambda image: image.sector(at)[place]),
        ("ldxdw r1, [r7+8]\n", lambda image: image.epoch()),
        ("ldxdw r1, [r7+16]\n", lambda image: image.marks()),
    ])


def checker(chance, sectors):
    """A checker as a text, and what it answers and reports on an image: it fails on some remainders of its number."""
    sources = [source(chance, sectors) for _ in range(chance.randint(1, 3))]
    modulus, answer = chance.randint(2, 7), chance.choice([1, 9, -1])
    good = chance.sample(range(modulus), chance.randint(0, modulus - 1))
    text = "mov64 r7, r1\nmov64 r6, 0\n" + "".join(f"{code}mul64 r6, 3\nadd64 r6, r1\n" for code, _value in sources)
    text += f"mov64 r1, r6\nmod64 r6, {modulus}\ncall 4\n" + "".join(f"jeq r6, {it}, good\n" for it in good)
    text += f"mov64 r0, {answer}\nexit\n" + ("good:\nmov64 r0, 0\nexit\n" if good else "")

    def judge(image):
        number = 0
        for _code, value in sources:
            number = number * 3 + value(image)
        return (0, []) if number % modulus in good else (answer % 2**64, [number])

    return text, judge


def some_run(chance):
    """A run of a random log with random options."""
    sectors = chance.randint(1, 3)
    entries = [entry(chance, sectors) for _ in range(chance.randint(0, 9))]
    cut = chance.randrange(len(entries) + 1)
    flush = tuple(chance.randrange(len(entries)) for _ in range(chance.choice([0, 0, 0, 1, 2]) if entries else 0))
    first, last = chance.choice([(None, None), (None, None), (cut, None), (None, cut), (cut, len(entries))])
    cuts, by = chance.choice(["all", "all", "flush", "mark"]), chance.choice(["sector", "write"])
    return Run(entries, sectors, cuts, chance.randint(0, 3), chance.random() < 0.4, by, flush, first, last)


class CureSoak(Soak):
    def called(self, words):
        done = subprocess.run([self.program, *words], cwd=self.folder, capture_output=True, timeout=LIMIT)
        return done.returncode, done.stdout, done.stderr

    def about(self, code, name, sectors, limit):
        """What the report says of a program."""
        if limit:
            return f"slots {len(code) // 8} limit {limit}"
        _status, out, _error = self.called(["verify", name, "--sectors", str(sectors)])
        return f"slots {len(code) // 8} {out.decode().strip().removeprefix('accepted ')}"

    def differs(self, number, seed):
        """The commands that don't answer as the models say, or None where the run has too many images to be made here."""
        chance = random.Random(f"{seed} {number}")
        run = some_run(chance)
        if sum(cure_model.images_at(run, cut) for cut in run.wanted_cuts()) > MOST_IMAGES:
            return None
        Path(self.folder, "log").write_bytes(log(run.recorded))
        limit, files, checkers = chance.choice([None, 200]), [], []
        for place in range(chance.choice([1, 1, 2])):
            text, judge = checker(chance, run.sectors)
            code = self.assembler.assemble(text)
            Path(self.folder, f"p{place}").write_bytes(code)
            files.append(f"p{place}")
            checkers.append(Checker(self.about(code, f"p{place}", run.sectors, limit), judge))
        words = ["log", *files, *run.options().split(), *(["--checked", str(limit)] if limit else [])]
        wanted = {"explore": explored, "why": causes, "cure": cure_model.cure, "page": page}
        status = 1 if cure_model.failures(run, checkers) else 0
        found = []
        for command, model in wanted.items():
            work = chance.choice([[], ["--workers", "4"], ["--cache", "20"], ["--workers", "3", "--cache", "1"]])
            ended, out, error = self.called([command, *words, *work])
            quiet = all(line.startswith("note: ") for line in error.decode().splitlines())
            text = model(run, checkers)
            if (ended, out, quiet) != (status, text if isinstance(text, bytes) else text.encode(), True):
                found.append(" ".join([command, *words, *work]))
        return found


def main():
    given = options("Compares random runs with the models.", 2_000).parse_args()
    return run_all(given, "cure_soak", CureSoak)


if __name__ == "__main__":
    sys.exit(main())
