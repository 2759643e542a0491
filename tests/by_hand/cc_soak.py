#!/usr/bin/env python3
"""Compares random checkers in C, as `crashbpf-cc` makes them, with their native builds. The gate doesn't run it: it needs compilers.

    python3 tests/by_hand/cc_soak.py [--compiler NAME].. [--runs N] [--seed S] [--images N] [PROGRAM]

PROGRAM is as in run.py, NAME clang where none is given, N 1,000 runs of 50 images, S 1. A run is a checker of tests/models/c_programs.py and
images of zeros, ones, small and random numbers. Each compiler makes a program of it, which has to give the answer and the codes of what `cc`
makes of the same source. A run that strays is told as well: no checker reads outside of what it has. A checker that is refused by a
compiler is no run of it, and is counted by what is said first. Where turns are spent (answer 1000000), nothing is compared.

Each run is made of its number and the seed alone. The source of one that isn't as expected is left in the folder cc_soak, and `--only NUMBER`
makes that again. UndefinedBehaviorSanitizer is asked first whether C leaves something of it undefined. The last line is as in run.py.
"""
import random
import re
import subprocess
import sys
from collections import Counter
from pathlib import Path

sys.dont_write_bytecode = True

import rooms

rooms.enter()

from c_programs import Writer
from native import CC, SPENT, STRAY, Checker, judged, logged, native
from notation import SECTOR
from soaking import Soak, options, run_all

SECTORS = 8
# Turns for each loop of a checker: more than it makes, and few enough for its budget.
TURNS = ["--turns", "4000"]
KEPT = Path("cc_soak")


def image(chance):
    """An image with numbers of one kind, or of several."""
    kind = chance.randrange(6)
    if kind == 0:
        return bytes(SECTOR * SECTORS)
    if kind == 1:
        return b"\xff" * (SECTOR * SECTORS)
    few = bytes(chance.choice([0, 0, 0, 1, 2, 3, 255, 128, 127]) for _ in range(SECTOR * SECTORS))
    return few if kind < 4 else chance.randbytes(SECTOR * SECTORS)


class Compared(Soak):
    """Checkers by some compilers and by cc."""

    compilers, images = ["clang"], 50

    def __init__(self, program, folder):
        super().__init__(program, folder)
        self.refused, self.count, self.answers, self.spent = Counter(), Counter(), 0, 0

    def made(self, source, compiler):
        """The program that crashbpf-cc makes, or what it says in its place. It is verified where it runs, for its budget by guards."""
        out = self.folder / "p"
        done = subprocess.run([sys.executable, CC, source, "check", out, "--compiler", compiler, *TURNS], capture_output=True, text=True)
        said = re.findall(r"^cc: .*", done.stderr, re.M)
        return (out.read_bytes(), "") if done.returncode == 0 else (None, said[0] if said else done.stderr[:80])

    def differs(self, number, seed):
        """What the programs of a checker answer otherwise than its native build, or None where no compiler makes one."""
        chance = random.Random(f"{seed} {number}")
        source = self.folder / "random.c"
        source.write_text(Writer(chance).checker())
        checker = Checker(source, sectors=SECTORS, options=["--guards"])
        entries, cuts = logged([image(chance) for _ in range(self.images)], chance)
        judge = native(checker, self.folder)
        wanted = judge(cuts)
        found = {}
        for compiler in self.compilers:
            code, said = self.made(source, compiler)
            answers = judged(self.program, checker, entries, cuts, self.folder) if code else [(said, "")]
            if not answers[0][0].isdigit() and answers[0][0] != STRAY:
                self.refused[f"{compiler}: {re.sub(r'[0-9]+', 'N', answers[0][0])}"] += 1
                continue
            self.count[compiler] += 1
            found[compiler] = answers
        lines = [it for compiler, own in found.items() for it in self.compared(compiler, own, wanted)]
        if lines:
            lines.append(self.kept(number, checker, cuts))
        return lines if found else None

    def compared(self, compiler, found, wanted):
        """The first way in which a program answers otherwise."""
        told = [(one, other) for one, other in zip(found, wanted) if one[0] != str(SPENT)]
        self.spent += len(found) - len(told)
        self.answers += len(told)
        # The codes of a good image aren't told.
        wrong = [(one, other) for one, other in told if one[0] != other[0] or one[1] not in (None, other[1])]
        return [f"{compiler}: on {len(wrong)} of {len(found)} images otherwise: {wrong[0][0]}, and native {wrong[0][1]}"] if wrong else []

    def kept(self, number, checker, cuts):
        """Keeps the source and the images, and says what UndefinedBehaviorSanitizer finds."""
        folder = KEPT / str(number)
        folder.mkdir(parents=True, exist_ok=True)
        (folder / "random.c").write_text(checker.source.read_text())
        for at, cut in enumerate(cuts):
            (folder / f"{at}.img").write_bytes(cut.content)
        words = ["-fsanitize=undefined,address", "-fno-sanitize=alignment", "-fno-omit-frame-pointer"]
        native(checker, self.folder, *words)
        images = [folder / f"{at}.img" for at in range(len(cuts))]
        done = subprocess.run([self.folder / f"native{len(words)}", *images], capture_output=True, text=True)
        undefined = re.findall(r"runtime error.*|ERROR: .*", done.stderr)
        return f"    kept in {folder}; {undefined[0] if undefined else 'the sanitizers find nothing'}"

    def said(self):
        refused = "".join(f"\n  {count} {said}" for said, count in self.refused.most_common(12))
        made = ", ".join(f"{count} by {it}" for it, count in self.count.items())
        return f"; {made}; {self.answers} answers compared, {self.spent} with spent turns{refused}"


def main():
    parser = options(__doc__.splitlines()[0], 1000)
    parser.add_argument("--compiler", action="append")
    parser.add_argument("--images", type=int, default=50)
    given = parser.parse_args()
    Compared.compilers, Compared.images = given.compiler or ["clang"], given.images
    return run_all(given, "cc_soak", Compared)


if __name__ == "__main__":
    sys.exit(main())
