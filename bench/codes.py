#!/usr/bin/env python3
"""The table by code: instructions a step and time a step of a loop of each code alone, of random loops, and of DPDK beside them.

    python3 bench/codes.py PROGRAM [--dpdk OTHER] [--way WAY] [--before BEFORE] [--loops N] [--seed N] [--to FILE]
                           [--time] [--rounds N]

PROGRAM is the program of bench/crate (`codes` of its words), or any that takes words as it does: WAY FILE RUNS .., and prints
WAY FILE NANOSECONDS ANSWER for each. WAY is `plain` (a run without checks that keeps no footprint), `noted` (with a
footprint, the default, as `explore` runs), or `guarded`. OTHER is bench/codes.c, which takes the same words. BEFORE is another
program as PROGRAM, whose counts stand beside its. Each row is a loop of 32 copies of one code, in turn on four registers, which
the turn sets anew. What the rest of a turn takes, measured by a loop of nothing else, is taken off. Counts are instructions of
the processor by `valgrind --tool=callgrind`, of two lengths of each loop, and hang on nothing else that the machine does. Times,
with --time, do: they are the least of N rounds (25), in each of which the programs run one after the other.

Last come ten checkers of examples/, each on a device that passes, with the sectors of FILE.device: a whole run, its start and
end too, by the steps that it makes.

Where two programs print another answer for a loop, a line on standard error says so, and the status is 1.
"""
import argparse
import random
import re
import struct
import subprocess
import sys
import tempfile
from math import exp, log
from pathlib import Path

sys.dont_write_bytecode = True

import rooms

rooms.enter()

from rows.checkers import DEVICES, EXAMPLES, device
from machine_model import Ended, Machine

# Where it may, a program that is timed has a processor of its own.
ALONE = ["chrt", "-f", "10", "taskset", "-c", "3"]
COPIES, SHORT, LONG, TIMED = 32, 20, 60, 2_000
SECTOR, STEPS = 512, 200_000
CHECKERS = "adler bitmap_popcount block_types crc_sector extents free_list inode_table sorted_keys super_block two_copies".split()
OPERATORS = ["add", "sub", "mul", "div", "or", "and", "lsh", "rsh", "neg", "mod", "xor", "mov", "arsh"]
CONDITIONS = {"eq": 1, "gt": 2, "ge": 3, "set": 4, "ne": 5, "sgt": 6, "sge": 7, "lt": 10, "le": 11, "slt": 12, "sle": 13}
SIZES = {"w": 0x00, "h": 0x08, "b": 0x10, "dw": 0x18}


def slot(code, dst=0, src=0, offset=0, immediate=0):
    """The eight bytes of a slot."""
    return struct.pack("<BBhi", code, dst | src << 4, offset, immediate)


def arithmetic():
    """Each code of arithmetic by its name: what makes a copy of it on a register, and whether DPDK has it."""
    for number, name in enumerate(OPERATORS):
        for bits, group in (32, 4), (64, 7):
            if name == "neg":
                yield f"neg{bits}", (lambda r, c=group | 0x80: slot(c, r)), True
                continue
            kinds = [("", 0)] + [("s", 1)] * (name in ("div", "mod"))
            for sign, offset in kinds:
                yield f"{sign}{name}{bits} imm", (lambda r, c=group | number << 4, o=offset: slot(c, r, 0, o, 7)), not offset and (name, bits) != ("arsh", 32)
                yield f"{sign}{name}{bits} reg", (lambda r, c=group | 8 | number << 4, o=offset: slot(c, r, 5, o)), not offset and (name, bits) != ("arsh", 32)
    for bits, group, distances in (32, 4, (8, 16)), (64, 7, (8, 16, 32)):
        for distance in distances:
            yield f"movsx{distance}to{bits}", (lambda r, c=group | 0xB8, o=distance: slot(c, r, 5, o)), False
    for name, code, is_old in ("le", 0xD4, True), ("be", 0xDC, True), ("swap", 0xD7, False):
        for bits in 16, 32, 64:
            # DPDK's le16 and le32 leave the bits above them.
            is_same = is_old and (name != "le" or bits == 64)
            yield f"{name}{bits}", (lambda r, c=code, n=bits: slot(c, r, 0, 0, n)), is_same


def jumps():
    """Each code of a jump. It leads to the next slot, whether it is taken or not."""
    for name, number in CONDITIONS.items():
        for bits, group in (32, 6), (64, 5):
            yield f"j{name}{bits} imm", (lambda r, c=group | number << 4: slot(c, r, 0, 0, 7)), bits == 64
            yield f"j{name}{bits} reg", (lambda r, c=group | 8 | number << 4: slot(c, r, 5)), bits == 64
    yield "ja", (lambda r: slot(0x05)), True
    yield "jal", (lambda r: slot(0x06)), False


def accesses():
    """Each code of a load or a store, of the stack, and loads of the context and of a sector."""
    for size, bits in SIZES.items():
        yield f"ldx{size}", (lambda r, c=0x61 | bits: slot(c, r, 10, -8 * r)), True
        yield f"st{size}", (lambda r, c=0x62 | bits: slot(c, 10, 0, -8 * r, 7)), True
        yield f"stx{size}", (lambda r, c=0x63 | bits: slot(c, 10, r, -8 * r)), True
        if size != "dw":
            yield f"ldxs{size}", (lambda r, c=0x81 | bits: slot(c, r, 10, -8 * r)), False
    yield "ldxdw context", (lambda r: slot(0x79, r, 8, 8)), False
    yield "ldxdw sector", (lambda r: slot(0x79, r, 0, 8 * r)), False
    yield "lddw", (lambda r: slot(0x18, r, 0, 0, 7) + slot(0, immediate=9)), True


def calls():
    """Calls: of a helper, and of a local function that ends at once, two steps each."""
    yield "call helper", (lambda r: slot(0x85, immediate=1)), False
    yield "call local, exit", None, False


SETTING = [
    *[slot(0xB7, r, 0, 0, 0x1234_5671 + r) for r in (1, 2, 3, 4)],
    *[slot(0x67, r, 0, 0, 29) for r in (1, 2)],
]
BEFORE = [
    slot(0xBF, 8, 1),
    *[slot(0x7A, 10, 0, -8 * r, 77 * r) for r in (1, 2, 3, 4)],
    slot(0x18) + slot(0, immediate=3),
    slot(0xB7, 5, 0, 0, 3),
    slot(0xB7, 6, 0, 0, 0),
]


def program(body, turns):
    """The bytes of a loop over these slots, of that many turns. What registers 1 to 4 hold after each goes into the answer."""
    turn = b"".join(SETTING) + body + b"".join(slot(0x0F, 6, r) for r in (1, 2, 3, 4)) + slot(0x17, 9, 0, 0, 1)
    back = slot(0x55, 9, 0, -len(turn) // 8 - 1, 0)
    return b"".join(BEFORE) + slot(0xB7, 9, 0, 0, turns) + turn + back + slot(0xBF, 0, 6) + slot(0x95)


def local_calls(turns):
    """The bytes of a loop with calls of a local function, which stands after the end."""
    turn = b"".join(SETTING) + COPIES * slot(0x85) + b"".join(slot(0x0F, 6, r) for r in (1, 2, 3, 4)) + slot(0x17, 9, 0, 0, 1)
    start = len(b"".join(BEFORE)) // 8 + 1 + len(SETTING)
    end = len(b"".join(BEFORE) + turn) // 8 + 4
    made = [slot(0x85, 0, 1, 0, end - (start + at) - 1) for at in range(COPIES)]
    turn = turn.replace(COPIES * slot(0x85), b"".join(made))
    back = slot(0x55, 9, 0, -len(turn) // 8 - 1, 0)
    return b"".join(BEFORE) + slot(0xB7, 9, 0, 0, turns) + turn + back + slot(0xBF, 0, 6) + slot(0x95) + slot(0x95)


class Row:
    """A loop with its name, the number of its copies a turn in steps, and whether DPDK has all its codes. Or a program that is run
    as a whole, with the steps of a run and the sectors on which it runs."""

    def __init__(self, name, made, steps, is_old, sectors=None):
        self.name, self.made, self.steps, self.is_old, self.sectors = name, made, steps, is_old, sectors
        self.runs = 1 if sectors is None else max(1, STEPS // steps)

    def cost(self, turn, nothing):
        """What a step costs, of the cost of a turn and of a turn of nothing, or of a run."""
        return (turn - nothing if self.sectors is None else turn) / self.steps


class Held:
    """The image on which a checker runs."""

    def __init__(self, content):
        self.content, self.run = content, self
        self.sectors = len(content) // SECTOR

    def sector(self, number):
        return self.content[SECTOR * number : SECTOR * (number + 1)]

    def epoch(self):
        return 0

    def marks(self):
        return 1


def steps_of(code, content):
    """How many steps a program makes."""
    machine, steps = Machine(code, Held(content)), 1
    try:
        while True:
            machine.step(machine.instructions[machine.slot])
            steps += 1
    except Ended as end:
        if not str(end).startswith("answer 0"):
            sys.exit(f"a checker ended with {end}")
        return steps


def checkers():
    """The rows of the checkers."""
    for name in CHECKERS:
        code, content = (EXAMPLES / f"checkers/{name}.bpf").read_bytes(), device(DEVICES[name][0][0])
        yield Row(name, lambda turns, code=code: code, steps_of(code, content), True, content)


def by_code(name, copy, is_old):
    """The row of a code."""
    if copy is None:
        return Row(name, local_calls, 2 * COPIES, False)
    body = b"".join(copy(1 + at % 4) for at in range(COPIES))
    return Row(name, lambda turns: program(body, turns), COPIES, is_old)


def drawn(known, count, seed):
    """That many rows of five codes drawn at random of those that DPDK has, on registers drawn at random."""
    chance, known = random.Random(seed), [it for it in known if it[2]]
    for number in range(count):
        five = [chance.choice(known) for _ in range(5)]
        body = b"".join(copy(chance.randint(1, 4)) for _ in range(6) for _, copy, _ in five)
        name = f"{number + 1}: " + ", ".join(it[0] for it in five)
        yield Row(name, lambda turns, body=body: program(body, turns), 30, True)


def run(words, files, way, runs):
    """What a program prints for these files, each run so often: nanoseconds and answer of each."""
    said = subprocess.run([*words, *(it for at, file in enumerate(files) for it in (way, file, str(runs[at])))], capture_output=True, text=True, check=True)
    return [(float(line.split()[2]), line.split()[3]) for line in said.stdout.splitlines()]


def counts(program, rows, way, folder, is_old):
    """The instructions of a step of each row; None for what DPDK lacks, where only its rows are run."""
    ran = [at for at, row in enumerate(rows) if row.is_old or not is_old]
    files = [str(folder / f"{at}.{name}") for at in (0, *(at + 1 for at in ran)) for name in ("short", "long")]
    named = "dpdk_runs*" if is_old else f"*{way}_runs*"
    # The start of the process counts with the first run.
    runs = [1, 1, 1, *(it for at in ran for it in ((1, 1) if rows[at].sectors is None else (SHORT, LONG)))]
    run(["valgrind", "--tool=callgrind", f"--callgrind-out-file={folder}/cost", f"--dump-after={named}", program], [files[0], *files], way, runs)
    costs = []
    for at in range(2, len(files) + 2):
        text = (folder / f"cost.{at}").read_text(errors="replace")
        costs.append(int(re.search(r"^totals: (\d+)", text, re.M)[1]))
        (folder / f"cost.{at}").unlink()
    turns = [(long - short) / (LONG - SHORT) for short, long in zip(costs[::2], costs[1::2])]
    found = {at: rows[at].cost(it, turns[0]) for at, it in zip(ran, turns[1:])}
    return [found.get(at) for at in range(len(rows))]


def times(programs, rows, way, folder, rounds):
    """For each of the programs (words, is_old): nanoseconds a step of each row and its answer, the least of all rounds; None for
    what DPDK lacks, where only its rows are run. In each round one program runs after the other."""
    asked = []
    for words, is_old in programs:
        ran = [at for at, row in enumerate(rows) if row.is_old or not is_old]
        asked.append((words, ran, [str(folder / f"{at}.time") for at in (0, *(at + 1 for at in ran))]))
    best = [[(float("inf"), "")] * len(files) for _, _, files in asked]
    for _round in range(rounds):
        for at, (words, ran, files) in enumerate(asked):
            now = run(words, files, way, [1, *(rows[it].runs for it in ran)])
            best[at] = [min(old, new) for old, new in zip(best[at], now)]
    for (_, ran, _), (nothing, *least) in zip(asked, best):
        found = {}
        for at, (time, answer) in zip(ran, least):
            found[at] = rows[at].cost(time / (TIMED if rows[at].sectors is None else rows[at].runs), nothing[0] / TIMED), answer
        yield [found.get(at, (None, None)) for at in range(len(rows))]


def mean(numbers):
    """The geometric mean."""
    return exp(sum(map(log, numbers)) / len(numbers)) if numbers else float("nan")


def write_files(rows, folder):
    """Writes the programs of all rows, after a loop of nothing."""
    for at, row in enumerate([Row("nothing", lambda turns: program(b"", turns), 1, True), *rows]):
        for name, turns in ("short", SHORT), ("long", LONG), ("time", TIMED):
            (folder / f"{at}.{name}").write_bytes(row.made(turns))
            if row.sectors is not None:
                (folder / f"{at}.{name}.device").write_bytes(row.sectors)


def lines(rows, columns):
    """The lines of a table."""
    yield "| Loop | " + " | ".join(columns) + " |"
    yield "|---|" + "---|" * len(columns)
    for at, row in enumerate(rows):
        yield f"| {row.name} | " + " | ".join(f"{it[at]:.2f}" if it[at] is not None else "" for it in columns.values()) + " |"


def main():
    words = argparse.ArgumentParser(usage=__doc__)
    words.add_argument("program")
    words.add_argument("--dpdk")
    words.add_argument("--way", default="noted")
    words.add_argument("--before")
    words.add_argument("--loops", type=int, default=50)
    words.add_argument("--seed", type=int, default=1)
    words.add_argument("--to")
    words.add_argument("--time", action="store_true")
    words.add_argument("--rounds", type=int, default=25)
    given = words.parse_args()
    known = [*arithmetic(), *jumps(), *accesses()]
    codes, loops = [by_code(*it) for it in [*known, *calls()]], list(drawn(known, given.loops, given.seed))
    rows = [*codes, *loops, *checkers()]
    codes, loops = len(codes), len(codes) + len(loops)
    with tempfile.TemporaryDirectory() as room:
        folder = Path(room)
        write_files(rows, folder)
        columns, answers = {}, {}
        for name, path in ("instructions", given.program), ("before", given.before), ("DPDK", given.dpdk):
            if path:
                columns[name] = counts(path, rows, given.way, folder, path == given.dpdk)
        if given.time:
            alone = ALONE if subprocess.run([*ALONE, "true"], stderr=subprocess.DEVNULL).returncode == 0 else []
            named = [it for it in (("ns", given.program), ("ns before", given.before), ("ns DPDK", given.dpdk)) if it[1]]
            found = times([([*alone, path], path == given.dpdk) for _, path in named], rows, given.way, folder, given.rounds)
            for (name, _), column in zip(named, found):
                columns[name], answers[name] = zip(*column)
    text = "\n".join([*lines(rows, columns), ""])
    for name, it in columns.items():
        some = lambda part: mean([max(x, 0.01) for x in part if x is not None])
        text += f"\n{name}: by code {some(it[:codes]):.2f}, random loops {some(it[codes:loops]):.2f}, checkers {some(it[loops:]):.2f}"
    if "ns DPDK" in columns:
        ratio = [theirs / max(ours, 0.01) if theirs is not None else None for ours, theirs in zip(columns["ns"], columns["ns DPDK"])]
        both = [(row.name, it) for row, it in zip(rows[:codes], ratio) if it is not None]
        least = min(both, key=lambda it: it[1])
        text += f"\nby DPDK: by code {mean([it for _, it in both]):.2f}, least {least[1]:.2f} ({least[0]})"
        text += f", random loops {mean([it for it in ratio[codes:loops] if it is not None]):.2f}"
        text += f", checkers {mean([it for it in ratio[loops:] if it is not None]):.2f}"
    print(text)
    if given.to:
        Path(given.to).write_text(text + "\n", encoding="utf-8")
    wrong = [row.name for at, row in enumerate(rows) if len({it[at] for it in answers.values()} - {None}) > 1]
    for name in wrong:
        print(f"another answer: {name}", file=sys.stderr)
    return 1 if wrong else 0


if __name__ == "__main__":
    sys.exit(main())
