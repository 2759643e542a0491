#!/usr/bin/env python3
"""Runs the built program on many damaged inputs with options picked at random.

    python3 tests/by_hand/soak.py [--runs N] [--seed S] [PROGRAM]

PROGRAM is as in run.py; N is 100,000 where it isn't given, S is 1. Each run takes a log, a program or an assembly text of
examples/ or of a row of rows/, changes some of it (bits, bytes, fields of headers and slots, pieces cut out, put in twice
or appended), and gives it to a command with options of which some are out of range. It is expected that

    the status is 0, 1 or 2; 1 only of `explore`, `why`, `cure`, `page`, `check` and `join`;
    there is nothing on standard output where the status is 2, and one line at least on standard error there, and else
    nothing on standard error but notes;
    no run takes longer than LIMIT seconds, or more memory than twice its files, 128 MiB, and 4 KiB for each entry of its cache.

Every command is called, each with all options that it takes.

Each run is made of its own number and the seed alone, and a run that isn't as expected is printed with it, so that it can
be made again: `--only NUMBER` makes that run and leaves its files in the folder soak. The last line is as in run.py.
"""
import json
import os
import random
import subprocess
import sys
import tempfile
from concurrent.futures import ThreadPoolExecutor
from pathlib import Path

sys.dont_write_bytecode = True

import rooms

rooms.enter()

from memory import WANT_OF_MEMORY
from notation import SECTOR, TOP, Assembly
from rows import all_rows
from running import Assembler, made, shortened, split_notes, split_progress
from soaking import options

LIMIT = 20
MEMORY = 128 << 20
ENTRY = 4 << 10
GREATEST = 1 << 20

# Numbers near which things change.
EDGES = [0, 1, 2, 3, 4, 7, 8, 15, 16, 255, 256, 511, 512, 513, 4095, 4096, 16384, 65535, 65536, 1 << 31, (1 << 32) - 1, (1 << 63), (1 << 64) - 1]


class Stock:
    """Whole inputs, from which damaged ones are made: logs, raw logs, programs, assembly texts, and texts of parts."""

    def __init__(self, program):
        assembler = Assembler(program)
        self.logs, self.raw_logs, self.programs, self.texts, self.parts = [], [], [], [], []
        of_command = {"asm": self.texts, "import": self.raw_logs, "join": self.parts}
        for row in all_rows():
            kinds = of_command.get(row.words.partition(" ")[0])
            for name, content in row.files.items():
                if isinstance(content, Assembly):
                    self.texts.append(content.encode())
                    self.programs.append(assembler.assemble(content))
                elif isinstance(content, (bytes, str)) and len(content) <= GREATEST:
                    kind = self.logs if name == "log" else self.programs if kinds is None else kinds
                    kind.append(made(content))
        self.logs += [path.read_bytes() for path in sorted(TOP.glob("examples/*/*.log"))]


def damaged_field(chance, content):
    """One field of a header or a slot gets another number."""
    width = chance.choice([1, 2, 4, 8, 8])
    if len(content) < width:
        return content
    at = chance.randrange(0, len(content) - width + 1)
    at -= at % chance.choice([1, width, 8 if len(content) < 4096 else SECTOR])
    number = chance.choice([chance.choice(EDGES), chance.getrandbits(64)]) % (1 << 8 * width)
    return content[:at] + number.to_bytes(width, "little") + content[at + width :]


def damaged_bit(chance, content):
    """Returns the content with one bit turned."""
    if not content:
        return content
    at = chance.randrange(len(content))
    return content[:at] + bytes([content[at] ^ 1 << chance.randrange(8)]) + content[at + 1 :]


def cut_out(chance, content):
    first, last = sorted(chance.randrange(len(content) + 1) for _ in range(2))
    unit = chance.choice([1, 8, SECTOR])
    return content[: first - first % unit] + content[last - last % unit :]


def put_in_twice(chance, content):
    """Returns the content with a stretch in it twice."""
    first, last = sorted(chance.randrange(len(content) + 1) for _ in range(2))
    unit = chance.choice([1, 8, SECTOR])
    first, last = first - first % unit, last - last % unit
    return (content[:last] + content[first:])[:GREATEST]


def appended(chance, content):
    return content + chance.randbytes(chance.choice([1, 7, 8, 9, SECTOR]))


def cut_off(chance, content):
    return content[: chance.randrange(len(content) + 1)]


DAMAGES = [damaged_field, damaged_field, damaged_field, damaged_bit, cut_out, put_in_twice, appended, cut_off]


def damaged(chance, whole):
    """Returns one of the contents, damaged some times."""
    content = chance.choice(whole)
    for _ in range(chance.choice([0, 1, 1, 2, 3, 8])):
        content = chance.choice(DAMAGES)(chance, content)
    return content


IMAGES = ["sectors", "base", "flush", "cuts", "from", "to", "bound", "by"]
RUN = [*IMAGES, "checked", "workers", "cache"]

# The options with a value that each command takes, and how often those without one are given.
TAKEN = {
    "explore": [*RUN, "images"],
    "why": RUN,
    "cure": RUN,
    "page": RUN,
    "images": [*IMAGES, "parts"],
    "image": IMAGES,
    "show": IMAGES,
    "log": ["sectors", "base", "flush"],
    "verify": ["sectors"],
    "check": ["epoch", "marks", "checked", "trace"],
    "import": [],
    "join": [],
    "asm": [],
    "list": [],
}
FLAGS = {
    "explore": {"large": 0.1, "tears": 0.4, "first": 0.3, "progress": 0.1, "guards": 0.3},
    "why": {"large": 0.1, "tears": 0.4, "progress": 0.1, "guards": 0.3},
    "cure": {"large": 0.1, "tears": 0.4, "progress": 0.1, "guards": 0.3},
    "page": {"large": 0.1, "tears": 0.4, "progress": 0.1, "guards": 0.3},
    "images": {"large": 0.1, "tears": 0.4, "images": 0.5},
    "image": {"large": 0.1, "tears": 0.4, "images": 0.3},
    "show": {"large": 0.1, "tears": 0.4, "images": 0.3},
    "log": {"large": 0.1},
    "verify": {"large": 0.1, "guards": 0.5, "list": 0.3},
    "check": {"large": 0.1},
    "import": {"large": 0.5},
    "join": {"part": 0.5},
    "asm": {},
    "list": {"slots": 0.5},
}

# The commands that run programs on images, those whose status may be 1, and those that tell one image.
RUNS = ["explore", "why", "cure", "page"]
MAY_FAIL = [*RUNS, "check", "join"]
TELL = ["image", "show"]

# How often each command is called, in all COMMANDS.
COMMANDS = [*["explore"] * 3, *["why"] * 2, *["cure"] * 2, *["page"] * 2, *TAKEN, "show", "verify", "check", "join"]

# Choices as `--choice` takes them, and images as `--images` does, good ones and others.
CHOICES = ["-", "0.0:drop", "0:drop", "1.0:head3", "1.0:tail7", "0.0:drop,1.0:drop", "2.1:head9", "x", "", "4294967296.0:drop"]
RANGES = ["0..1", "0..3", "1..2", "2..9", "0..64", "0..16777216", "0..16777217", "0..0", "5..3", "3", "..", "1..", "0..9223372036854775807", "0..9223372036854775808"]


def options_of(chance, command):
    """Some options of a command, each mostly within its range."""
    picked = {
        "sectors": chance.choice([1, 2, 3, 4, 8, 8, 64, 64, 16384, 16385, 0]),
        "base": chance.choice(["base", "base", "none"]),
        "flush": chance.choice(["0", "1", "2", "0,3", "5,2,2", "65535", "4294967296", "1,", ",".join("0" * 64), ",".join("0" * 65)]),
        "cuts": chance.choice(["all", "flush", "mark"]),
        "from": chance.choice([0, 0, 1, 2, 65537, 1 << 63]),
        "to": chance.choice([1, 2, 3, 5, 8, 65537, 0]),
        "bound": chance.choice([0, 1, 1, 2, 3, 4]),
        "checked": chance.choice([0, 1, 2, 100, 10000, 1000000001]),
        "workers": chance.choice([1, 1, 2, 4, 64, 65, 0]),
        "cache": chance.choice([0, 1, 16, 65536, 65537]),
        "by": chance.choice(["sector", "write", "write", "page"]),
        "images": chance.choice(RANGES),
        "parts": chance.choice([1, 1, 2, 7, 64, 65536, 65537, 0]),
        "epoch": chance.choice([0, 1, 3, 65536, 65537]),
        "marks": chance.choice([0, 1, 3, 65536, 65537]),
        "trace": chance.choice([0, 1, 5, 1000, 1 << 63]),
    }
    words = []
    for name in TAKEN[command]:
        if name == "sectors" or chance.random() < (0.2 if name in ("base", "images") else 0.5):
            words += [f"--{name}", str(picked[name])]
    return words + [f"--{name}" for name, often in FLAGS[command].items() if chance.random() < often]


def some(chance, kind, name, counts):
    """Damaged inputs of a kind, as files that are named by their numbers."""
    return {f"{name}{place}": damaged(chance, kind) for place in range(chance.choice(counts))}


def made_run(stock, seed, number):
    """The words and the files of the run of that number."""
    chance = random.Random(f"{seed} {number}")
    command = chance.choice(COMMANDS)
    told = []
    if command == "asm":
        files = {"source": damaged(chance, stock.texts)}
    elif command in ("verify", "list"):
        files = {"p0": damaged(chance, stock.programs)}
    elif command == "check":
        files = {"p0": damaged(chance, stock.programs), "image": bytes(SECTOR * chance.choice([0, 1, 2, 8])) + chance.randbytes(chance.choice([0, 0, SECTOR, 9]))}
    elif command == "import":
        files = {"raw": damaged(chance, stock.raw_logs)}
    elif command == "join":
        files = some(chance, stock.parts, "part", [1, 1, 2, 3])
    else:
        files = {"log": damaged(chance, stock.logs)} | (some(chance, stock.programs, "p", [1, 1, 1, 2, 8, 9]) if command in RUNS else {})
    if command in TELL and chance.random() < 0.5:
        told = [str(chance.choice([0, 1, 2, 5, 20, 1000, (1 << 64) - 1]))]
    elif command in TELL:
        told = ["--cut", str(chance.choice([0, 1, 2, 5, 20, 65536, (1 << 64) - 1])), "--choice", chance.choice(CHOICES)]
    words = [command, *files, *told, *options_of(chance, command)]
    if "base" in words:
        files["base"] = chance.randbytes(chance.choice([0, 1, SECTOR, 3 * SECTOR, 9 * SECTOR]))
    return words, files


def wrong(words, done, most):
    """What isn't as expected of a run that ended, or None."""
    _progress, error = split_progress(done.stderr) if "--progress" in words else (b"", done.stderr)
    error, _notes = split_notes(error)
    if done.returncode == -9:
        return f"no end within {LIMIT} seconds"
    if WANT_OF_MEMORY.fullmatch(error):
        return "not enough memory"
    if done.memory > most:
        return f"{done.memory >> 20} MiB of memory"
    if done.returncode not in (0, 1, 2) or done.returncode == 1 and words[0] not in MAY_FAIL:
        return f"status {done.returncode}"
    if done.returncode == 2 and (done.stdout or not error.endswith(b"\n")):
        return f"status 2 with {len(done.stdout)} bytes, standard error '{shortened(done.stderr)}'"
    if done.returncode != 2 and error:
        return f"status {done.returncode} with standard error '{shortened(done.stderr)}'"
    return None


class Done:
    """How a run ended: its status, its outputs, and the most memory that it had, in bytes."""

    def __init__(self, folder, returncode, memory):
        self.returncode, self.memory = returncode, memory
        self.stdout, self.stderr = Path(folder, "stdout").read_bytes(), Path(folder, "stderr").read_bytes()


class Soak:
    """Runs of the program on damaged inputs, started by a process of its own (measured.py)."""

    def __init__(self, program, stock, seed):
        self.program, self.stock, self.seed = program, stock, seed
        command = [sys.executable, "-S", str(TOP / "tests/shared/measured.py")]
        self.starter = subprocess.Popen(command, stdin=subprocess.PIPE, stdout=subprocess.PIPE, text=True)

    def run(self, number, folder):
        """The words of the run of that number, and what isn't as expected of it, or None."""
        words, files = made_run(self.stock, self.seed, number)
        for name, content in files.items():
            Path(folder, name).write_bytes(content)
        self.starter.stdin.write(json.dumps([str(folder), [self.program, *words], LIMIT]) + "\n")
        self.starter.stdin.flush()
        done = Done(folder, *json.loads(self.starter.stdout.readline()))
        cache = int(words[words.index("--cache") + 1]) if "--cache" in words else 0
        return words, wrong(words, done, 2 * sum(map(len, files.values())) + MEMORY + ENTRY * min(cache, 65536))

    def run_all(self, numbers):
        """The runs of these numbers that weren't as expected."""
        found = []
        for number in numbers:
            with tempfile.TemporaryDirectory() as folder:
                words, what = self.run(number, folder)
            if what:
                found.append(f"FAILED run {number}, {' '.join(words)}: {what}")
        return found


def main():
    asked = options("Runs the program on damaged inputs.", 100_000).parse_args()
    program = str(Path(asked.program).resolve())
    stock = Stock(program)
    if asked.only is not None:
        folder = Path("soak").resolve()
        folder.mkdir(exist_ok=True)
        words, what = Soak(program, stock, asked.seed).run(asked.only, folder)
        print(" ".join(words), what or "as expected")
        return 0
    workers = len(os.sched_getaffinity(0))
    parts = [range(first, asked.runs, workers) for first in range(workers)]
    with ThreadPoolExecutor(workers) as pool:
        found = [line for part in pool.map(lambda part: Soak(program, stock, asked.seed).run_all(part), parts) for line in part]
    print("\n".join(found + [f"{asked.runs - len(found)} passed, {len(found)} failed"]))
    return 1 if found else 0


if __name__ == "__main__":
    sys.exit(main())
