#!/usr/bin/env python3
"""Compares two programs, as one of today and one of earlier, on random checkers: who is accepted, why not, and what runs come to.

    python3 tests/by_hand/acceptance_soak.py --before PROGRAM [--runs N] [--seed S] [PROGRAM]

PROGRAM is as in run.py; N is 20,000 where it isn't given, S is 1. Each run makes one checker, of pieces that are often accepted and
often aren't: loads and stores of the stack at fixed and at computed places, with tests and without, sectors with and without a null
test, `copy`, the memory of programs with guards and checksums, loops by `again` and by jumps, local calls, arithmetic of both widths, and now and then a slot of random bytes. Both
programs are asked for `verify`, `verify --guards`, and for `explore` in the ways in which the checker is accepted. Status, output
and notes have to be the same bytes.

Each run is made of its number and the seed alone. One that isn't as expected is printed, and `--only NUMBER` makes it again and
leaves its files in the folder acceptance_soak. The last line is as in run.py. It is started by hand.
"""
import random
import struct
import subprocess
import sys
from pathlib import Path

sys.dont_write_bytecode = True

import rooms

rooms.enter()

from notation import FLUSH, Entry, W, log
from soaking import Soak, options, run_all

SECTORS = 4
MEMORY = 1 << 40
LIMIT = 60
MOV, ADD, SUB, MUL, DIV, OR, AND, LSH, RSH, NEG, MOD, XOR, _, ARSH, END = (0x10 * it for it in (0xb, 0, 1, 2, 3, 4, 5, 6, 7, 8, 9, 10, 11, 12, 13))
JUMPS = [0x10, 0x20, 0x30, 0x40, 0x50, 0x60, 0x70, 0xa0, 0xb0, 0xc0, 0xd0]
SIZES = {1: 0x10, 2: 0x08, 4: 0x00, 8: 0x18}


def slot(code, dst=0, src=0, offset=0, imm=0):
    return struct.pack("<BBhi", code, dst | src << 4, offset, (imm + 2**31) % 2**32 - 2**31)


def imm(chance):
    return chance.choice([0, 1, 2, 7, 8, 16, 63, 64, 255, 504, 511, 512, 4096, -1, -8, -512, 2**31 - 1, -2**31, chance.randrange(-600, 600)])


def arithmetic(chance, registers):
    """Returns a random instruction of arithmetic."""
    kind = chance.choice([7, 7, 4])
    op = chance.choice([MOV, ADD, SUB, MUL, DIV, OR, AND, LSH, RSH, NEG, MOD, XOR, ARSH])
    by_register = chance.random() < 0.4 and op != NEG
    value = chance.randrange(64 if kind == 7 else 32) if op in (LSH, RSH, ARSH) and chance.random() < 0.9 else imm(chance)
    if op == NEG:
        return slot(op | kind, chance.choice(registers))
    return slot(op | kind | 8 * by_register, chance.choice(registers), chance.choice(registers) if by_register else 0, 0, 0 if by_register else value)


def stack(chance, registers):
    """A store or a load at a place of the stack, often one that was written."""
    size = chance.choice([1, 2, 4, 8])
    at = -chance.choice([8, 16, 24, 64, 512, 512, 520, 1, 4]) if chance.random() < 0.9 else chance.randrange(-520, 9)
    what = chance.random()
    if what < 0.4:
        return slot(0x63 & 7 | 0x60 | SIZES[size], 10, chance.choice(registers), at)
    if what < 0.6:
        return slot(0x62 & 7 | 0x60 | SIZES[size], 10, 0, at, imm(chance))
    store = slot(0x7B, 10, chance.choice(registers), at - at % 8) if chance.random() < 0.7 else b""
    return store + slot(0x61 & 7 | 0x60 | SIZES[size], chance.choice(registers), 10, at)


def computed(chance, registers):
    """A load or a store at a computed place of the stack, mostly after a test of the number."""
    it, base = chance.choice(registers), chance.choice([2, 3, 4])
    text = b""
    if chance.random() < 0.6:
        text += slot(0x57, it, 0, 0, chance.choice([7, 15, 31, 63, 511, 255]))
    elif chance.random() < 0.6:
        text += slot(0x25, it, 0, chance.choice([1, 3, 4]), chance.choice([7, 63, 504, 511]))
    text += slot(0xBF, base, 10) + slot(0x07, base, 0, 0, -chance.choice([8, 64, 512])) + slot(0x0F, base, it)
    size = chance.choice([1, 8])
    if chance.random() < 0.5:
        return text + slot(0x63 & 7 | 0x60 | SIZES[size], base, it, chance.choice([0, 0, 8]))
    return text + slot(0x61 & 7 | 0x60 | SIZES[size], it, base, chance.choice([0, 0, -8]))


def sector(chance, registers):
    """A call of `sector`, a null test mostly, and a load."""
    text = slot(0xB7, 1, 0, 0, chance.randrange(SECTORS + 1)) if chance.random() < 0.8 else slot(0xBF, 1, chance.choice(registers))
    text += slot(0x85, 0, 0, 0, 1)
    if chance.random() < 0.8:
        text += slot(0x15, 0, 0, chance.choice([1, 1, 2, 3]), 0)
    it = chance.choice(registers)
    if chance.random() < 0.3:
        text += slot(0x57, it, 0, 0, chance.choice([255, 511, 504, 1023])) + slot(0x0F, 0, it)
    text += slot(0x61 & 7 | 0x60 | SIZES[chance.choice([1, 2, 4, 8])], it, 0, chance.choice([0, 8, 504, 511, 512, chance.randrange(512)]))
    return text + (slot(0x7B, 0, it, 0) if chance.random() < 0.05 else b"") + slot(0xB7, 0, 0, 0, 0)


def lddw(dst, number):
    return slot(0x18, dst, 0, 0, number) + slot(0, 0, 0, 0, number >> 32)


def own_memory(chance, registers):
    """A load or a store of the memory that there is with guards, often by a number; or a checksum."""
    place = MEMORY + chance.choice([0, 8, 1020, 65528, 65535, 65536, -1, chance.randrange(65536)])
    it, base = chance.choice(registers), chance.choice([2, 3, 4])
    if chance.random() < 0.3:
        number = chance.choice([8, 9, 10, 11, 12])
        length = lddw(3, chance.choice([0, 1, 8, 512, 4096, 4097])) if chance.random() < 0.9 else slot(0xBF, 3, it)
        start = lddw(2, chance.choice([place, 0, 511, 2048])) if chance.random() < 0.8 else slot(0xBF, 2, 10) + slot(0x07, 2, 0, 0, -8)
        return slot(0xBF, 1, it) + start + length + slot(0x85, 0, 0, 0, number) + slot(0xBF, it, 0)
    text = lddw(base, place)
    if chance.random() < 0.4:
        text += slot(0x57, it, 0, 0, chance.choice([7, 255, 65535])) + slot(0x0F, base, it)
    size, at = chance.choice([1, 2, 4, 8]), chance.choice([0, 0, 8, -8, 4])
    if chance.random() < 0.5:
        return text + slot(0x63 & 7 | 0x60 | SIZES[size], base, it, at)
    return text + slot(0x61 & 7 | 0x60 | SIZES[size], it, base, at)


def helper(chance, registers):
    """Returns a random call of a helper, with arguments that it may take."""
    number = chance.choice([2, 2, 4, 5, 6, 7, 8])
    text = slot(0xB7, 1, 0, 0, chance.choice([0, 1, 3, 512, 1000, 2040]))
    if number == 2:
        size = chance.choice([8, 16, 48, 64, 512])
        text += slot(0xBF, 2, 10) + slot(0x07, 2, 0, 0, -chance.choice([8, 16, 64, 512])) + slot(0xB7, 3, 0, 0, size)
        if chance.random() < 0.3:
            text += slot(0xBF, 3, chance.choice(registers)) + (slot(0x57, 3, 0, 0, 63) if chance.random() < 0.6 else b"")
        text += slot(0x85, 0, 0, 0, 2)
        return text + slot(0x79, chance.choice(registers), 10, -8)
    if number == 7:
        text += slot(0xB7, 2, 0, 0, chance.randrange(SECTORS + 2))
    return text + slot(0x85, 0, 0, 0, number) + (slot(0xBF, chance.choice(registers), 0) if chance.random() < 0.7 else b"")


def branch(chance, registers):
    kind, by_register = chance.choice([5, 5, 6]), chance.random() < 0.3
    code = chance.choice(JUMPS) | kind | 8 * by_register
    return slot(code, chance.choice(registers), chance.choice(registers) if by_register else 0, chance.choice([1, 1, 2, 3, 5]), 0 if by_register else imm(chance))


def context(chance, registers):
    return slot(0x61 & 7 | 0x60 | SIZES[chance.choice([8, 8, 8, 4])], chance.choice(registers), 9, chance.choice([0, 8, 16, 16, 24]))


def loop(chance, registers):
    """Returns a random loop, by the helper that counts turns or by a register."""
    it, inner = chance.choice([7, 8]), chance.choice([arithmetic, stack, computed])(chance, registers)
    if chance.random() < 0.6:
        return slot(0xB7, 1, 0, 0, chance.choice([3, 20])) + slot(0x85, 0, 0, 0, 3) + slot(0x15, 0, 0, len(inner) // 8 + 1, 0) + inner + slot(0x05, 0, 0, -(len(inner) // 8 + 4))
    return slot(0xB7, it, 0, 0, 0) + inner + slot(0x07, it, 0, 0, 1) + slot(0xA5, it, 0, -(len(inner) // 8 + 2), chance.choice([4, 30]))


PIECES = [arithmetic, arithmetic, arithmetic, stack, stack, computed, own_memory, sector, sector, helper, branch, branch, context, loop]


def checker(chance):
    """The bytes of a checker. A local function stands after its EXIT where it has one."""
    registers = chance.choice([[6, 7, 8], [0, 6, 7], [0, 1, 2, 6, 7, 8], list(range(10))])
    text = slot(0xBF, 9, 1) + b"".join(slot(0xB7, it, 0, 0, imm(chance)) for it in registers if it != 9 or chance.random() < 0.1)
    body = [chance.choice(PIECES)(chance, registers) for _ in range(chance.randint(1, 9))]
    if chance.random() < 0.1:
        body.insert(chance.randrange(len(body) + 1), chance.randbytes(8))
    end = slot(0xBF, 0, chance.choice(registers)) + slot(0x57, 0, 0, 0, chance.choice([1, 3, 255])) + slot(0x95)
    called = b""
    if chance.random() < 0.25:
        after = b"".join(chance.choice(PIECES)(chance, [0, 6, 7, 8]) for _ in range(chance.randint(0, 2)))
        called = b"".join(slot(0xB7, it) for it in (6, 7, 8)) + after + slot(0xB7, 0, 0, 0, imm(chance)) + slot(0x95)
        place = chance.randrange(len(body) + 1)
        call_at = len(text + b"".join(body[:place])) // 8
        target = (len(text + b"".join(body) + end) // 8 + 1) - (call_at + 1)
        body.insert(place, slot(0x85, 0, 1, 0, target))
    return text + b"".join(body) + end + called


class AcceptanceSoak(Soak):
    def __init__(self, program, before, folder):
        super().__init__(program, folder)
        self.before = before
        self.found = dict.fromkeys(["accepted", "with guards alone", "neither"], 0)
        entries = [W(0, 1, 7), W(1, 2, 0x81), Entry(flags=FLUSH), W(3, 1, 1), W(0, 1, 255)]
        Path(folder, "log").write_bytes(log(entries))

    def called(self, program, words):
        done = subprocess.run([program, *words], cwd=self.folder, capture_output=True, timeout=LIMIT)
        return done.returncode, done.stdout, done.stderr

    def differs(self, number, seed):
        """Compares what two programs say of a random checker, and of its runs."""
        chance = random.Random(f"{seed} {number}")
        Path(self.folder, "p").write_bytes(checker(chance))
        at = ["--sectors", str(SECTORS)]
        ways = [["verify", "p", *at], ["verify", "p", *at, "--guards", "--list"]]
        strict, loose = (self.called(self.program, way) for way in ways)
        kind = "accepted" if strict[0] == 0 else "with guards alone" if loose[0] == 0 else "neither"
        self.found[kind] += 1
        if loose[0] == 0:
            ways += [["explore", "log", "p", *at, "--guards", "--bound", "2"]]
        if strict[0] == 0:
            ways += [["explore", "log", "p", *at, "--bound", "1", "--tears"]]
        elif chance.random() < 0.1:
            ways += [["explore", "log", "p", *at, "--checked", "300"], ["explore", "log", "p", *at]]
        known = {0: strict, 1: loose}
        return [" ".join(way) for place, way in enumerate(ways)
                if (known.get(place) or self.called(self.program, way)) != self.called(self.before, way)]

    def said(self):
        return "".join(f", {count} {kind}" for kind, count in self.found.items())


def main():
    parser = options("Compares two programs on random checkers.", 20_000)
    parser.add_argument("--before", required=True)
    given = parser.parse_args()
    before = str(Path(given.before).resolve())
    return run_all(given, "acceptance_soak", lambda program, folder: AcceptanceSoak(program, before, folder))


if __name__ == "__main__":
    sys.exit(main())
