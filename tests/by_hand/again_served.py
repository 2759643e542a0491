#!/usr/bin/env python3
"""Compares what `crashbpf-each --again` says with plain files: each choice of each second cut of each choice of small cuts.

    python3 tests/by_hand/again_served.py [--parts N] [--most N] [--seed S] [NAME ..]

NAME is one of DESIGNS, all without one. Of each the text of `--again` is made. Then each image of each cut of at most N parts (4) is served, so
that it is seen what the program does to just that image. Of that log each second image is made a plain file, without the server, and the
program run on it; where a second cut has more than --most choices (32), as many are picked by chance. It has to end as the text says. It wants
FUSE, strace, e2fsck, SQLite of Python, and the built program, which CRASHBPF names where it is another. It is no part of the gate.
"""
import argparse
import io
import itertools
import os
import random
import re
import shutil
import subprocess
import sys
import tempfile
from concurrent.futures import ThreadPoolExecutor
from pathlib import Path
from typing import NamedTuple

sys.dont_write_bytecode = True

import rooms

rooms.enter()

from commands.each.second_images import LaidImage, SecondImages, SeenImages
from commands.each.second_log import NAME, SecondLog, SecondLogs
from commands.each.served_log import text_of
from commands.each.served_mount import Mount
from commands.each.served_server import ENDS, TOLD, answered, received, sent
from commands.each.spot import Cases, fates_of_case
from commands.each.step import is_last_cut
from commands.record import named_layout
from commands.shared import recording
from notation import TOP

EACH, RECORD, REPLAY = TOP / "commands/each/crashbpf-each", TOP / "commands/record/crashbpf-record", TOP / "examples/recovery/replay.py"
FILES = TOP / "commands/record/crashbpf-files"
# A database of SQLite: `write MODE` makes three commits, and `check MODE` asks for those that were acknowledged. In DELETE mode the last one may
# be rolled back, since its unlink isn't synced.
SQLITE = """\
import os, sqlite3, sys
act, mode = sys.argv[1:]
def mark(name):
    open(os.environ["RECORDING"] + "/marks", "a").write(f"0 {name}\\n")
def write():
    it = sqlite3.connect(os.environ["FILES"] + "/db", isolation_level=None)
    for words in (f"PRAGMA journal_mode={mode}", "PRAGMA synchronous=FULL", "CREATE TABLE t (n, x)"):
        it.execute(words)
    mark("made")
    for number in (1, 2, 3):
        it.execute("INSERT INTO t VALUES (?, hex(zeroblob(500)))", (number,))
        mark(f"commit-{number}")
    os._exit(0)
def check(marks):
    if not os.path.exists("db"):
        return marks > 1
    it = sqlite3.connect("db", isolation_level=None)
    try:
        if it.execute("PRAGMA integrity_check").fetchall() != [("ok",)]:
            return 1
        return len(it.execute("SELECT n FROM t").fetchall()) < marks - 2 if marks > 1 else 0
    except sqlite3.Error:
        return 3 if marks > 1 else 0
    finally:
        it.close()
sys.exit(write() if act == "write" else check(int(os.environ["CRASH_MARKS"])))
"""
SECOND = re.compile(
    r"cut (?P<cut>\d+) choice (?P<choice>\S+) then cut (?P<then>\d+) choice (?P<choice2>\S+) marks \d+ case \d+ (?P<ending>.+?)"
    r" kept (?P<kept>\S+) then (?P<kept2>\S+)(?: among (?P<among>\S+) then (?P<among2>\S+))? free \d+ then \d+ sync \S+"
)
RUNNERS = 4


class Design(NamedTuple):
    """A log and a program: how the log is made in a folder, its name, the number of its sectors, the first cut, and the words of the program;
    the folder of the recording, where its files have names."""

    make: object
    log: str
    sectors: int
    first: int
    program: tuple
    folder: str = ""


def recorded(folder):
    subprocess.run([RECORD, "made", "--", REPLAY, "write"], cwd=folder, check=True, capture_output=True)


def of_sqlite(mode):
    """Returns what records SQLite in a mode."""

    def make(folder):
        Path(folder, "sqlite.py").write_text(SQLITE)
        words = [RECORD, "--files", "ext4", "--skip", "db-shm", "made", "--", "python3", f"{folder}/sqlite.py", "write", mode]
        subprocess.run(words, cwd=folder, check=True, capture_output=True)

    return Design(make, "made/writes.log", 0, 0, ("python3", "../sqlite.py", "check", mode), "made")


def named_replay(*words):
    """Returns the store of replay.py with names and sizes."""

    def make(folder):
        subprocess.run([RECORD, "--files", "ext4", "made", "--", REPLAY, "write"], cwd=folder, check=True, capture_output=True)

    return Design(make, "made/writes.log", 0, 0, (str(REPLAY), "check", "store", *words), "made")


def traced(name):
    words = [TOP / "commands/record/trace_log.py", TOP / f"examples/checkers/ext4/{name}.trace", f"{name}.log", "--sectors", "4096"]
    return lambda folder: subprocess.run(words, cwd=folder, check=True, capture_output=True)


DESIGNS = {
    "replay": Design(recorded, "made/writes.log", 48, 0, (str(REPLAY), "check", "{}")),
    "replay-sync": Design(recorded, "made/writes.log", 48, 0, (str(REPLAY), "check", "{}", "sync")),
    "replay-named": named_replay(),
    "sqlite-delete": of_sqlite("DELETE"),
    "sqlite-wal": of_sqlite("WAL"),
    "ext4": Design(traced("right"), "right.log", 4096, 6, (str(TOP / "examples/recovery/ext4"), "{}")),
    "e2fsck": Design(traced("right"), "right.log", 4096, 6, ("sh", "-c", 'e2fsck -fy "$0" >/dev/null 2>&1; e2fsck -fn "$0"', "{}")),
}


def ended(program, path, marks, folder=None):
    """What a program ends in on a file, or in a folder."""
    words = [str(path) if it == "{}" else it for it in program]
    surroundings = {**os.environ, "CRASH_MARKS": str(marks), "CRASH_IMAGE": str(path), "CRASH_SERVED": os.path.dirname(path), "E2FSCK_TIME": "1000000000"}
    return f"answer {subprocess.run(words, env=surroundings, cwd=folder, stdin=subprocess.DEVNULL, capture_output=True).returncode} codes -"


class Text:
    """What a text of --again says of choices."""

    def __init__(self, text):
        self.first, self.second = Cases(text), {}
        self.is_whole = text.endswith((" complete\n", " of these cuts\n"))
        for it in filter(None, map(SECOND.fullmatch, text.splitlines())):
            halves = [fates_of_case({name: it[name + more] for name in ("choice", "kept", "among")}) for more in ("", "2")]
            self.second.setdefault((int(it["cut"]), int(it["then"])), []).append((*halves, it["ending"]))

    def endings(self, cut, then, choices):
        """Returns the endings of the failing second cases that have the choices of both cuts, by the names of parts."""
        found = self.second.get((cut, then), [])
        return [it[2] for it in found if all(own.get(name, "whole") in some for own, half in zip(choices, it) for name, some in half.items())]


class Trial:
    """A design beside plain files."""

    def __init__(self, design, room, given):
        self.design, self.room, self.given, self.chance, self.runs = design, room, given, random.Random(given.seed), 0
        design.make(room)
        self.sectors, self.base, self.skipped, asked = design.sectors, None, (), [design.log, "--sectors", str(design.sectors)]
        if design.folder:
            known = recording.read(f"{room}/{design.folder}")
            self.sectors, self.base, self.skipped, asked = known.sectors, known.base and known.path(known.base), known.skipped, [design.folder]
            self.program = [it.replace("../", f"{room}/") for it in design.program]
            self.files = [str(FILES), known.path(known.map), "{}", "--", *self.program]
        else:
            self.program = self.files = design.program
        words = [EACH, *asked, "--from", str(design.first), "--by", "write", "--bound", "any", "--again", "--", *self.program]
        done = subprocess.run(words, cwd=room, capture_output=True, text=True, env={**os.environ, "E2FSCK_TIME": "1000000000"})
        print(done.stdout.splitlines()[-1] if done.stdout else done.stderr, flush=True)
        self.text = Text(done.stdout)
        self.images = SeenImages(Path(room, design.log), self.base, self.sectors, True)

    def differs(self):
        """Yields what ends otherwise than the text says."""
        if not self.text.is_whole:
            yield "the text isn't complete"
        mount = Mount(self.room, self.images, 1, logs=SecondLogs(self.skipped))
        try:
            for cut in range(self.design.first, len(self.images.entries) + 1):
                parts = self.images.at_risk(cut)
                if is_last_cut(self.images.entries, cut) and len(parts) <= self.given.parts:
                    for gone in itertools.product([False, True], repeat=len(parts)):
                        yield from self.image_differs(mount, cut, {it: "drop" for it, is_gone in zip(parts, gone) if is_gone})
        finally:
            mount.end()

    def served(self, mount, cut, choice):
        """What the program ends in on a served image, and what it does to it."""
        channel = mount.channels[0]
        sent(channel, TOLD.pack(0, cut) + text_of(choice).encode())
        received(channel)
        ending = ended(self.files, f"{mount.path}/00/image", self.images.marks[cut])
        sent(channel, TOLD.pack(0, ENDS))
        return ending, answered(received(channel))[2]

    def image_differs(self, mount, cut, choice):
        """Yields what is otherwise of one image of the log."""
        ending, content = self.served(mount, cut, choice)
        said = self.text.first.endings(cut, choice) or ["answer 0 codes -"]
        if said != [ending]:
            yield f"cut {cut} choice {text_of(choice)} ends in {ending}, and the text has {said}"
        if not ending.startswith("answer 0 "):
            return
        log = SecondLog(content[NAME:], self.images.image_of(cut, choice))
        if log.why:
            yield f"cut {cut} choice {text_of(choice)} isn't explored: {log.why}"
        images = SecondImages(self.images, cut, log, "")
        tasks = [(number, fates) for number in range(len(log.entries) + 1) if log.entries and log.is_last_cut(number) for fates in self.choices(images, number)]
        with ThreadPoolExecutor(RUNNERS) as pool:
            for (number, fates), ending in zip(tasks, pool.map(lambda it: self.plain(images, cut, choice, it), enumerate(tasks))):
                self.runs += 1
                own, after = images.halves({**choice, **fates})
                names = [{text_of({part: "drop"}).partition(":")[0]: fate for part, fate in half.items()} for half in (own, after)]
                said = self.text.endings(cut, number, names) or ["answer 0 codes -"]
                if said != [ending]:
                    yield f"cut {cut} choice {text_of(own)} then cut {number} choice {text_of(after)} ends in {ending}, and the text has {said}"

    def choices(self, images, number):
        """Yields the choices of a second cut, or some of them."""
        parts = images.of_second(number)
        if 2 ** len(parts) <= self.given.most:
            every = itertools.product([False, True], repeat=len(parts))
        else:
            every = [[self.chance.random() < 0.5 for _ in parts] for _ in range(self.given.most)]
        return [{it: "drop" for it, is_gone in zip(parts, gone) if is_gone} for gone in every]

    def plain(self, images, cut, choice, numbered):
        """What the program ends in on a plain file."""
        turn, (number, fates) = numbered
        image = images.image_of(cut + number, {**choice, **fates})
        path = Path(self.room, f"plain.{turn}")
        if images.view is not None:
            return self.in_folder(LaidImage(image), path, self.images.marks[cut])
        path.write_bytes(b"".join(map(image.sector, range(images.sectors))))
        try:
            return ended(self.program, path, self.images.marks[cut])
        finally:
            path.unlink()

    def in_folder(self, image, path, marks):
        """What the program ends in on the files of an image, laid out in a folder."""
        path.mkdir()
        content = b"".join(map(image.sector, range(image.sectors)))
        try:
            named_layout.Image(io.BytesIO(content), image.laid.found).lay_out(path)
            return ended(self.program, path, marks, path)
        finally:
            shutil.rmtree(path)


def main():
    parser = argparse.ArgumentParser(description="Compares crashbpf-each --again with plain files.")
    parser.add_argument("--parts", type=int, default=4)
    parser.add_argument("--most", type=int, default=32)
    parser.add_argument("--seed", type=int, default=1)
    parser.add_argument("names", nargs="*")
    given, failed = parser.parse_args(), 0
    os.environ["PATH"] += os.pathsep + "/usr/sbin"
    for name in given.names or DESIGNS:
        with tempfile.TemporaryDirectory(dir="/dev/shm") as room:
            trial = Trial(DESIGNS[name], room, given)
            found = list(trial.differs())
        for line in found[:20]:
            print(f"{name}: {line}", flush=True)
        print(f"{name}: {trial.runs} second images as plain files, {len(found)} differ", flush=True)
        failed += bool(found)
    return 1 if failed else 0


if __name__ == "__main__":
    sys.exit(main())
