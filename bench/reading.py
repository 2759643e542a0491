#!/usr/bin/env python3
"""Times `explore` with a checker that reads pages by position, beside another program.

    python3 bench/reading.py PROGRAM [--before ANOTHER] [ROUNDS]

The checker is bench/pages.c, by crashbpf-cc and clang. The log has thirteen commits of a database of 20 leaves, three of them
written anew in each, explored by write with at most two lost. Of the processor time of each program the least of ROUNDS (7)
counts. It takes some seconds, and is no part of the gate.
"""
import argparse
import os
import random
import resource
import struct
import subprocess
import sys
import tempfile
from pathlib import Path

sys.dont_write_bytecode = True
TOP = Path(__file__).resolve().parent.parent

WORDS = "explore log pages.bpf --sectors 512 --by write --bound 2 --workers 1"
PAGES = 60


def page(kind, number, slots):
    """The bytes of a page."""
    return (struct.pack("<HHI", kind, len(slots), number) + b"".join(struct.pack("<QQ", *it) for it in slots)).ljust(4096, b"\0")


class Writer:
    """The writes of a database, as lines of a trace and the bytes that they name."""

    def __init__(self):
        self.lines, self.bytes = [], b""
        self.free, self.root, self.generation = list(range(PAGES)), None, 0
        self.leaves = []

    def write(self, data, sector):
        self.lines.append(f"write {sector} {len(data) // 512} data bytes")
        self.bytes += data

    def put_leaf(self, keys):
        number = self.free.pop(0)
        self.write(page(2, number, [(it, it & 7) for it in keys]), 8 + 8 * number)
        return number, keys

    def commit(self):
        """Commits: the root, a flush, the meta page in turn, a flush, and a mark."""
        number, before = self.free.pop(0), self.root
        self.write(page(1, number, [(keys[0], child) for child, keys in self.leaves]), 8 + 8 * number)
        self.root, self.generation = number, self.generation + 1
        self.lines.append("flush")
        total = sum(it & 7 for _, keys in self.leaves for it in keys)
        meta = struct.pack("<QQQQQ", 0xBEEFC0DE, self.generation, number, PAGES, total)
        self.write(meta.ljust(512, b"\0"), self.generation % 2)
        self.lines += ["flush", f"mark commit {self.generation}"]
        self.free += [] if before is None else [before]


def write_log(folder):
    """Writes the log of the commits."""
    drawn, made = random.Random(1), Writer()
    made.leaves = [made.put_leaf([1000 * leaf + 3 * at for at in range(100)]) for leaf in range(20)]
    made.commit()
    for _ in range(12):
        old = []
        for place in drawn.sample(range(20), 3):
            number, keys = made.leaves[place]
            old.append(number)
            made.leaves[place] = made.put_leaf([*keys, keys[-1] + 3])
        made.commit()
        made.free += old
    (folder / "bytes").write_bytes(made.bytes)
    (folder / "trace").write_text("\n".join(made.lines) + "\n")
    subprocess.run([TOP / "commands/record/trace_log.py", "trace", "log", "--sectors", "512"], cwd=folder, check=True)


def seconds(program, folder):
    """The processor time of a run, on which no image may fail."""
    before = resource.getrusage(resource.RUSAGE_CHILDREN)
    subprocess.run([program, *WORDS.split()], cwd=folder, check=True, capture_output=True)
    after = resource.getrusage(resource.RUSAGE_CHILDREN)
    return after.ru_utime + after.ru_stime - before.ru_utime - before.ru_stime


def main(words):
    parser = argparse.ArgumentParser()
    parser.add_argument("program", type=Path)
    parser.add_argument("--before", type=Path)
    parser.add_argument("rounds", nargs="?", type=int, default=7)
    asked = parser.parse_args(words)
    programs = [it.resolve() for it in (asked.program, asked.before) if it]
    with tempfile.TemporaryDirectory() as name:
        folder = Path(name)
        write_log(folder)
        (folder / "crashbpf").symlink_to(programs[0])
        path = {**os.environ, "PATH": f"{folder}:{os.environ['PATH']}"}
        making = [TOP / "commands/cc/crashbpf-cc", TOP / "bench/pages.c", "check", "pages.bpf", "--sectors", "512"]
        subprocess.run(making, cwd=folder, check=True, capture_output=True, env=path)
        least = [1e9 for _ in programs]
        for _ in range(asked.rounds):
            least = [min(it, seconds(program, folder)) for it, program in zip(least, programs)]
    for it, program in zip(least, programs):
        print(f"{program}: {1000 * it:.0f} ms")
    if asked.before:
        print(f"{least[1] / least[0]:.2f} times as fast")


if __name__ == "__main__":
    main(sys.argv[1:])
