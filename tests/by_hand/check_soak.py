#!/usr/bin/env python3
"""Compares `check --guards` with `explore --guards`, and both with the model of the machine, on random programs and images.

    python3 tests/by_hand/check_soak.py [--runs N] [--seed S] [PROGRAM]

PROGRAM is as in run.py; N is 1,000 where it isn't given, S is 1. A run has a checker that is accepted with guards, and the image of a
device. `check` runs it on the image. `explore` runs it on that image too, as what a device held before a log without entries. The last
line of the one has to be the outcome in the failing line of the other, and answer 0 where there is none. The model says the same end.
Of a run that strays, the line of the last step has to say by which register, at which place, and how many bytes.

Checkers load and store by addresses that are made of numbers of the image, of the stacks of their frames, of the context and of the
memory, read locals that weren't written, call `copy`, and write to the locals of a caller. They ask for checksums of the device, of the
memory and of stacks. `explore` runs each of them twice more, on images that a log makes of this one, where the memory of a run has to be
that of no other.

Each run is made of its number and the seed alone. One that isn't as expected is printed, and `--only NUMBER` makes it again and
leaves its files in the folder check_soak. The last line is as in run.py. It takes some minutes, and is no part of the gate.
"""
import random
import re
import subprocess
import sys
from pathlib import Path
from types import SimpleNamespace

sys.dont_write_bytecode = True

import rooms

rooms.enter()

from machine_model import MEMORY, OWN, judged
from model import Run
from notation import FLUSH, Entry, S, log
from soaking import Soak, options, run_all

SIZES = {"b": 1, "h": 2, "w": 4, "dw": 8}
# Distances from the begin of the memory: at its ends, at the ends of pieces of 1,024 bytes, and far within.
IN_MEMORY = [*[8, 100, 1016, 1020, 1024, 2047, 32768, OWN - 520, OWN - 16] * 4, 0, OWN - 512, OWN - 8, OWN - 4, OWN - 1, OWN, -1, -8]
LENGTHS = [0, 1, 8, 40, 511, 512, 513, 4096, 4097, 2**40]
HEAD = "crash check 1\n"


def place(chance, sectors, depth):
    """Instructions that leave an address in r1, or a pointer that may be tested."""
    near = chance.choice([0, 0, 8, 8, 200, 480, 500, 500, 504, 508, 511, 512])
    ways = [
        f"mov64 r1, {chance.randrange(sectors + 1)}\ncall 1\nmov64 r1, r0\nadd64 r1, {near}\n",
        f"mov64 r1, {chance.randrange(sectors)}\ncall 1\njne r0, 0, +2\nmov64 r0, 0\nexit\nldxh r2, [r0+0]\nmod64 r2, 520\nmov64 r1, r0\nadd64 r1, r2\n",
        f"mov64 r1, r10\nadd64 r1, {chance.choice([-8, -16, -16, -64, -504, -1, -512, -513, 0])}\n",
        f"mov64 r1, r7\nadd64 r1, {chance.choice([0, 8, 8, 24, 25, 32])}\n",
    ]
    if chance.random() < 0.6:
        ways = [
            f"lddw r1, {MEMORY + chance.choice(IN_MEMORY)}\n",
            f"lddw r1, {MEMORY + chance.choice(IN_MEMORY)}\n",
            f"lddw r1, {MEMORY + chance.randrange(8, OWN - 520)}\n",
            f"mov64 r1, {chance.randrange(sectors)}\ncall 1\njne r0, 0, +2\nmov64 r0, 0\nexit\nldxh r2, [r0+0]\nlddw r1, {MEMORY + chance.choice(IN_MEMORY)}\nadd64 r1, r2\n",
        ]
    if depth:
        ways += ["mov64 r1, r6\n", f"mov64 r1, r6\nadd64 r1, {chance.choice([0, 4, 8])}\n"] * 2
    return chance.choice(ways)


def touched(chance, sectors, depth):
    """A load, a store or a copy at such a place; what was read is added to r8."""
    size = chance.choice(list(SIZES))
    at = chance.choice([0, 0, 0, 0, -8, 4, 1])
    kind = chance.random()
    if kind < 0.1:
        start = chance.choice([0, 1, 511, 512 * sectors - 1, 512 * sectors, chance.randrange(512 * sectors), 2**64 - 1])
        return f"lddw r1, {chance.choice([0, 1, 2**32 - 1, chance.getrandbits(64)])}\nlddw r2, {start}\nlddw r3, {chance.choice(LENGTHS)}\ncall {chance.choice([8, 9])}\nadd64 r8, r0\n"
    text = place(chance, sectors, depth)
    if kind < 0.25:
        return text + f"mov64 r2, r1\nmov64 r1, {chance.choice([0, -1, 5])}\nlddw r3, {chance.choice(LENGTHS)}\ncall {chance.choice([10, 11])}\nadd64 r8, r0\n"
    kind = chance.random()
    if kind < 0.5:
        return text + f"ldx{size} r0, [r1{at:+}]\nadd64 r8, r0\n"
    if kind < 0.7:
        return text + f"st{size} [r1{at:+}], {chance.randrange(100)}\n"
    if kind < 0.85:
        return text + f"stx{size} [r1{at:+}], r8\n"
    return text + f"mov64 r2, r1\nmov64 r1, {chance.randrange(512 * sectors)}\nmov64 r3, {chance.choice([1, 8, 16])}\ncall 2\nadd64 r8, r0\n"


def checker(chance, sectors):
    """A checker of one to three functions, of which each but the last calls the next with the address of a local."""
    depth = chance.choice([0, 0, 1, 1, 2])
    functions = []
    for frame in range(depth + 1):
        text = "mov64 r7, r1\n" if frame == 0 else "mov64 r6, r1\nmov64 r7, r2\n"
        text += "mov64 r8, 0\n"
        for _ in range(chance.randint(0, 2)):
            text += touched(chance, sectors, frame)
        if frame < depth:
            text += f"mov64 r1, r10\nadd64 r1, {chance.choice([-8, -16, -4])}\nmov64 r2, r7\ncallf f{frame + 1}\nadd64 r8, r0\n"
        for _ in range(chance.randint(0, 2)):
            text += touched(chance, sectors, frame)
        text += f"mov64 r0, r8\nmod64 r0, {chance.choice([2, 5, 1000])}\nexit\n"
        functions.append(("" if frame == 0 else f"f{frame}:\n") + text)
    return "".join(functions)


def image_of(chance, sectors):
    """Sectors of zeros, of one byte, and of random bytes."""
    return b"".join(chance.choice([bytes(512), bytes([chance.randrange(256)]) * 512, chance.randbytes(512)]) for _ in range(sectors))


class View:
    """An image as machine_model.py takes it."""

    def __init__(self, image, epoch=0, marks=0):
        self.image, self.told = image, (epoch, marks)
        self.run = SimpleNamespace(sectors=len(image) // 512)

    def epoch(self):
        return self.told[0]

    def marks(self):
        return self.told[1]

    def sector(self, number):
        return self.image[512 * number : 512 * number + 512]


STRAY = re.compile(r"step \d+ slot (\d+) (.*); stray by r(\d+) at (.*) bytes (\d+)")
NAMED = re.compile(r"(?:ldx|st|stx)s?(b|h|w|dw) .*\[r(\d+)[+-]\d+\]|(?:ldxs|ldx)(b|h|w|dw) .*\[r(\d+)[+-]\d+\]")


# Calls that may stray, and how many bytes they take at most.
CALLS = {"call 2": 512, "call 10": 4096, "call 11": 4096}


def held(steps, register):
    """What a register holds after some steps, as the last of them that changed it says; None where none did."""
    said = [it[1] for step in steps for it in re.finditer(rf"; r{register} ([^;]*)", step)]
    return said[-1] if said else None


def call_differs(steps, told, most):
    """What isn't as expected of a call that strayed, which takes at most so many bytes: it names r2, its word, and the bytes of r3."""
    place, length = held(steps, 2), held(steps, 3)
    if told[3] != "2":
        return ["another register than that of a call"]
    if place is None or length is None:
        return []
    wanted = (place, str(min(int(length), most)))
    return [] if (told[4], told[5]) == wanted else [f"the stray is at {told[4]} bytes {told[5]}, and not {' bytes '.join(wanted)}"]


def stray_differs(text, end):
    """What isn't as expected of the line of the last step, where the run strays; and where it doesn't."""
    steps = [it for it in text.splitlines() if it.startswith("step ")]
    found = [STRAY.fullmatch(it) for it in steps]
    if not end.startswith("stray "):
        return [f"a stray is told: {it}" for it, told in zip(steps, found) if told]
    told = found[-1]
    if any(found[:-1]) or not told or f"stray at slot {told[1]}" != end:
        return [f"the stray isn't told of {steps[-1]}"]
    if told[2] in CALLS:
        return call_differs(steps[:-1], told, CALLS[told[2]])
    named = NAMED.search(told[2])
    if not named:
        return [f"no load or store: {told[2]}"]
    size, register = (named[1], named[2]) if named[1] else (named[3], named[4])
    return [] if (str(SIZES[size]), register) == (told[5], told[3]) else [f"another register or size: {steps[-1]}"]


class CheckSoak(Soak):
    """A soak of one program; it counts the kinds of ends."""

    def __init__(self, program, folder):
        super().__init__(program, folder)
        self.ends, self.images = {}, 0

    def said(self):
        return "".join(f", {count} {kind}" for kind, count in sorted(self.ends.items())) + f", {self.images} images of logs"

    def called(self, words):
        done = subprocess.run([self.program, *words.split()], cwd=self.folder, capture_output=True, text=True, timeout=60)
        return done.returncode, done.stdout

    def differs(self, number, seed):
        """What isn't as expected, or None where the program is refused."""
        chance = random.Random(f"{seed} {number}")
        sectors = chance.choice([1, 2, 5])
        image, code = image_of(chance, sectors), self.assembler.assemble(checker(chance, sectors))
        for name, content in (("image", image), ("p", code), ("log", log([]))):
            Path(self.folder, name).write_bytes(content)
        status, text = self.called("check p image --guards --trace 1000")
        explored, report = self.called(f"explore log p --sectors {sectors} --base image --guards")
        if status == 2 or explored == 2:
            return None if status == explored else [f"status {status} of check and {explored} of explore"]
        end = text.splitlines()[-1]
        self.ends[end.split()[0]] = self.ends.get(end.split()[0], 0) + 1
        failing = re.findall(r"^image 0 cut 0 program 0 (.*) choice -$", report, re.M)
        said = [] if text.startswith(HEAD) else ["no text of check"]
        if failing != ([] if end.startswith("answer 0 ") else [end]) or status != explored:
            said.append(f"check ends in {end}, explore in {failing}")
        model = judged(code, View(image), 100_000, True)
        if str(model) != end:
            said.append(f"check ends in {end}, the model in {model}")
        return said + stray_differs(text, end) + self.log_differs(chance, code, image)

    def log_differs(self, chance, code, image):
        """What isn't as expected of the runs on the images of a log over this one."""
        sectors = len(image) // 512
        entries = [S(chance.randrange(sectors), chance.choice([bytes(512), chance.randbytes(512)])) for _ in range(chance.randint(1, 4))]
        entries.insert(chance.randrange(len(entries) + 1), Entry(flags=FLUSH))
        run = Run(entries, sectors, "all", 2, base=image)
        Path(self.folder, "log").write_bytes(log(entries))
        wanted = [
            f"image {it.number} cut {it.cut} program 0 {end.text} choice {it.choice()}"
            for it in run.images()
            for end in [judged(code, it, 100_000, True)]
            if not end.good
        ]
        for more in ("", " --workers 2 --cache 9"):
            _status, report = self.called(f"explore log p --sectors {sectors} --base image --bound 2 --guards{more}")
            found = [it for it in report.splitlines() if it.startswith("image ")]
            self.images += sum(1 for _image in run.images())
            if found != wanted:
                return [f"explore{more} says {found}, the model {wanted}"]
        return []


def main():
    given = options("Compares check --guards with explore --guards.", 1_000).parse_args()
    return run_all(given, "check_soak", CheckSoak)


if __name__ == "__main__":
    sys.exit(main())
