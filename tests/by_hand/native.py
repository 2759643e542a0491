#!/usr/bin/env python3
"""Compares checkers in C with their native builds (include/native/checker.h). The gate doesn't run it: it needs compilers.

    python3 tests/by_hand/native.py [--compiler NAME].. [--no-guards] [--images N] [--only WORD] [PROGRAM]

PROGRAM is as in run.py. Each checker of examples/, as its stored bytes, and with --compiler each of tests/plain/ and those of whole
formats in examples/checkers as commands/cc/crashbpf-cc makes it with that compiler, judges N images (1,000), and so does what `cc`
makes of the same source with the native header. Answers and codes have to be the same. Those of tests/rows/checkers.py judge the
devices of that table too, and have to answer as it says. With --no-guards the tool takes of tests/plain only what is accepted
without guards, and those of whole formats aren't tried.

    python3 tests/by_hand/native.py --compiler clang --compiler bpf-gcc --images 300 --only whole

compares those of whole formats alone.

The images are drawn at random, but not blindly: each is one that stands already with some changes, in which numbers and
texts of the source are put where fields stand mostly, and one that gave another answer is kept to draw more from. Those of a
whole format begin with what its logs write, at several places of each. Where
the turns of a plain loop are spent (answer 1000000), the native build, whose loops have no bound, is asked nothing. Where
a run strays, or indexes past the end of a table (answer 1000001), the native build has to read or write outside too:
AddressSanitizer says so, for the first 25 such images of a checker.

Prints for each compiler which of tests/plain are accepted, a line for each that failed, and last `N passed, M failed`.
"""
import argparse
import os
import random
import re
import subprocess
import sys
import tempfile
from collections import Counter
from dataclasses import dataclass, field
from pathlib import Path

sys.dont_write_bytecode = True

import rooms

rooms.enter()

from commands.cc.mutants import Drawer, filled_sectors
from commands.cc.native import answers, command
from commands.cc.program import OUTSIDE, SPENT
from notation import SECTOR, TOP, F, M, S, log
from rows import checkers, whole_formats

CC = TOP / "commands/cc/crashbpf-cc"
SECTORS = checkers.SECTORS
STRAY = "stray"
# What a native build answers that was ended by a signal or a sanitizer.
STRAYED = ("strayed", "")
STRAYS = 25
# How many images are judged between two looks at what they answered, of large devices too, and how many stand in one log.
ROUND, FEW, LOG = 50, 10, 250
SECONDS = 120
# How many answers of a checker are told.
TOLD = 12
# At how many places of each log of a whole format an image is taken.
PLACES = 6


@dataclass
class Checker:
    """A checker: its source, the function, the program if it is stored, and devices with what it answers on them."""

    source: Path
    function: str = "check"
    stored: object = None
    devices: list = field(default_factory=list)
    options: list = field(default_factory=list)
    sectors: int = SECTORS
    # With what its images begin, if it is one of a whole format.
    seeds: list = field(default_factory=list)

    def large(self):
        """What its commands take for a device of its size."""
        return ["--large"] * (self.sectors > whole_formats.USUAL)

    def round(self):
        """How many of its images are judged between two looks."""
        return FEW if self.large() else ROUND

    def name(self):
        return "whole " * bool(self.seeds) + f"{self.source.parent.name}/{self.source.stem}" + (f" {self.function}" if self.function != "check" else "")


def stored():
    """Yields the checkers of examples/, each with its stored bytes and devices."""
    for name in checkers.CHECKERS:
        path = TOP / f"examples/checkers/{name}.c"
        yield Checker(path, "check", path.with_suffix(".bpf"), checkers.DEVICES[name])
    yield Checker(TOP / "examples/two_slots/checker.c", "check", TOP / "examples/two_slots/checker_c.bpf")
    refused = TOP / "examples/refused/refused.c"
    for name in checkers.REFUSED:
        path = refused.with_name(f"{name}_cured.bpf")
        yield Checker(refused, f"{name}_cured", path, checkers.CURED_DEVICES.get(name, []))


def whole():
    """Yields the checkers of whole formats, with images of their logs to begin with."""
    for name, it in whole_formats.FORMATS.items():
        path = TOP / f"examples/checkers/{name}.c"
        seeds = [image for which in it.runs for image in images_of(whole_formats.run_of(name, which))]
        yield Checker(path, "check", path.with_suffix(".bpf"), options=it.options().split(), sectors=it.sectors, seeds=seeds)


def images_of(run):
    """What the device holds at some places of a run, where all has arrived that was written before."""
    content = bytearray(run.base.ljust(SECTOR * run.sectors, b"\0"))
    first = run.first or 0
    places = {first + it * (len(run.entries) - first) // (PLACES - 1) for it in range(PLACES)}
    for number, it in enumerate([*run.entries, None]):
        if number in places:
            yield bytes(content)
        if it:
            content[SECTOR * it.sector : SECTOR * it.sector + len(it.data)] = it.data


def plain():
    for path in sorted((TOP / "tests/plain").glob("*/*.c")):
        yield Checker(path)


class Images:
    """Draws images for a source."""

    def __init__(self, checker, rng):
        self.rng = rng
        seeds = checker.seeds or [bytes(SECTOR * SECTORS), *(checkers.device(it[0]) for it in checker.devices)]
        self.pool = {f"seed {i}": it for i, it in enumerate(seeds)}
        # Of a whole format most sectors are zeros.
        filled = sorted({at for it in checker.seeds for at in filled_sectors(it)})
        self.drawer = Drawer(checker.source.read_text(), checker.sectors, filled)

    def draw(self, count):
        return [self.drawer.changed(self.rng.choice(list(self.pool.values())), self.rng) for _ in range(count)]

    def keep(self, images, answers):
        for image, answer in zip(images, answers):
            if answer not in self.pool or self.rng.random() < 0.1:
                self.pool[answer] = image


@dataclass
class Cut:
    """An image, how many marks and flushes it has passed, and the number of its cut in its log."""

    content: bytes
    marks: int
    epoch: int
    cut: int


def native(checker, folder, *options):
    """Builds the native program, and answers a function that judges images with it."""
    program = folder / f"native{len(options)}"
    done = subprocess.run(command(checker.source, checker.function, program, options), capture_output=True, text=True)
    if done.returncode != 0:
        raise SystemExit(done.stderr)
    environment = {**os.environ, "ASAN_OPTIONS": "exitcode=99:detect_leaks=0"}

    def judge_some(words):
        done = subprocess.run([program, *words], capture_output=True, text=True, timeout=SECONDS, env=environment)
        return answers(done.stdout)

    def judge(cuts):
        """The answers, with STRAYED for an image at which the program ended."""
        for number, it in enumerate(cuts):
            (folder / f"image{number}").write_bytes(it.content)
        given = [["--marks", str(it.marks), "--epoch", str(it.epoch), folder / f"image{i}"] for i, it in enumerate(cuts)]
        found = []
        while len(found) < len(cuts):
            found += judge_some([word for words in given[len(found) :] for word in words])
            found += [STRAYED] if len(found) < len(cuts) else []
        return found

    return judge


def judged(program, checker, entries, cuts, folder):
    """What the program `p` of the folder answers on the images of a log at those cuts."""
    (folder / "log").write_bytes(log(entries))
    words = [program, "explore", "log", "p", "--sectors", str(checker.sectors), "--cuts", "flush", "--bound", "0", *checker.options]
    done = subprocess.run(words, capture_output=True, text=True, cwd=folder)
    if done.returncode == 2:
        return [(done.stderr.split("\n")[0], "")] * len(cuts)
    found = {}
    for it in re.finditer(r"^image \d+ cut (\d+) program 0 (answer|fault|out|stray) (\S+)(?: codes (\S+))?", done.stdout, re.M):
        found[int(it[1])] = (it[2] if it[2] == STRAY else it[3], it[4])
    return [found.get(it.cut, ("0", None)) for it in cuts]


def logged(images, rng):
    """A log in which each image stands in front of a flush: what it has otherwise than the one before is written there."""
    entries, cuts, marks, old = [], [], 0, bytes(len(images[0]))
    for epoch, content in enumerate(images):
        if rng.random() < 0.03:
            entries.append(M("mark"))
            marks += 1
        for at in range(0, len(content), SECTOR):
            if content[at : at + SECTOR] != old[at : at + SECTOR]:
                entries.append(S(at // SECTOR, content[at : at + SECTOR]))
        cuts.append(Cut(content, marks, epoch, len(entries)))
        entries.append(F)
        old = content
    return entries, cuts


def differing(found, wanted):
    """Whether a program answers otherwise than its native build; codes aren't told of a good image."""
    if found[0] in (str(SPENT), str(OUTSIDE), STRAY):
        return False
    return found[0] != wanted[0] or (found[1] is not None and found[1] != wanted[1])


def compare(program, checker, code, count, folder):
    """What differs, and how often each answer was given."""
    rng = random.Random(f"{checker.name()} 1")
    judge = native(checker, folder)
    strays = native(checker, folder, "-fsanitize=address", "-fno-omit-frame-pointer")
    images = Images(checker, rng)
    round_ = checker.round()
    at_once = round_ if checker.seeds else LOG
    answers, wrong = Counter(), []
    (folder / "p").write_bytes(code)
    for start in range(0, count, at_once):
        drawn = []
        for _ in range(start, min(count, start + at_once), round_):
            some = images.draw(round_)
            images.keep(some, judge([Cut(it, 0, 0, 0) for it in some]))
            drawn += some
        entries, cuts = logged(drawn, rng)
        for cut, found, wanted in zip(cuts, judged(program, checker, entries, cuts, folder), judge(cuts)):
            answers[found[0]] += 1
            if found[0] in (str(OUTSIDE), STRAY) and answers[found[0]] <= STRAYS and strays([cut]) != [STRAYED]:
                wrong.append(f"{checker.name()}: the program answers {found}, and the native build reads nothing outside")
            if differing(found, wanted):
                wrong.append(f"{checker.name()}: the program answers {found}, the native build {wanted} ({cut.marks} marks)")
    return wrong, answers


def known(checker, folder):
    """Devices on which the native build answers otherwise than the table says."""
    judge = native(checker, folder)
    for number, (pieces, *rest) in enumerate(checker.devices):
        wanted = (str(rest[0] if rest else 0), rest[1] if len(rest) > 1 else "-")
        found = judge([Cut(checkers.device(pieces), 1, 0, 0)])[0]
        if found != wanted:
            yield f"{checker.name()} on device {number}: native {found}, wanted {wanted}"


def compiled(checker, compiler, folder, program, words):
    """The program that crashbpf-cc makes with these words, or what it says in its place; the checker learns how it is run."""
    out = folder / "compiled.bpf"
    path = os.pathsep.join([str(program.parent), os.environ["PATH"]])
    size = ["--sectors", str(checker.sectors), *checker.large()]
    words = [CC, checker.source, checker.function, out, *size, "--compiler", compiler, "--timeout", "600", *words]
    done = subprocess.run(words, capture_output=True, text=True, env={**os.environ, "PATH": path})
    if done.returncode == 0:
        checker.options = ["--guards"] * ("explore needs --guards" in done.stderr) + checker.large()
        return out.read_bytes(), done.stdout.split("\n")[0]
    refused = re.search(r"^refused .*|^cc: .*", done.stderr, re.M)
    place = re.search(r"slot \d+, (\S+):", done.stderr)
    return None, (refused[0] if refused else done.stderr[:80]) + (f" ({place[1]})" if place else "")


def jobs(asked, program, folder):
    """Each checker that is compared, and its program."""
    for checker in [*stored(), *whole()]:
        if asked.only in checker.name():
            yield checker, checker.stored.read_bytes()
    for compiler in asked.compiler:
        count = Counter()
        for checker in [*plain(), *whole()]:
            if asked.only not in checker.name() or (checker.seeds and asked.no_guards):
                continue
            code, said = compiled(checker, compiler, folder, program, ["--no-guards"] * asked.no_guards)
            group = checker.source.parent.name
            count[group] += code is not None
            count[f"{group} of"] += 1
            print(f"{compiler} {checker.name()}: {said}", flush=True)
            if code is not None:
                yield checker, code
        groups = [it for it in count if not it.endswith(" of")]
        print(f"{compiler}:", ", ".join(f"{group} {count[group]} of {count[f'{group} of']}" for group in groups), "accepted")


def main():
    parser = argparse.ArgumentParser()
    parser.add_argument("--compiler", action="append", default=[])
    parser.add_argument("--no-guards", action="store_true")
    parser.add_argument("--images", type=int, default=1000)
    parser.add_argument("--only", default="")
    parser.add_argument("program", nargs="?", default=TOP / "crates/crashbpf/out/crashbpf", type=Path)
    asked = parser.parse_args()
    program = asked.program.resolve()
    passed = failed = 0
    with tempfile.TemporaryDirectory() as name:
        folder = Path(name)
        for checker, code in jobs(asked, program, folder):
            wrong, answers = compare(program, checker, code, asked.images, folder)
            wrong += known(checker, folder)
            told = " ".join(f"{answer}:{times}" for answer, times in answers.most_common(TOLD))
            told += f" and {len(answers) - TOLD} more" if len(answers) > TOLD else ""
            print(f"    {checker.name()}: answers {told}")
            for line in wrong[:5]:
                print("FAILED", line, flush=True)
            passed, failed = passed + (not wrong), failed + bool(wrong)
    print(f"{passed} passed, {failed} failed")
    return 1 if failed else 0


if __name__ == "__main__":
    sys.exit(main())
