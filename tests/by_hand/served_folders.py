#!/usr/bin/env python3
"""Compares folders of files that are served with those that crashbpf-files lays out, on random recordings.

    python3 tests/by_hand/served_folders.py [--runs N] [--seed S] [--only NUMBER] [--first]

N is 30 where it isn't given, S is 1; with `--first` the first run that fails is the last. A run records a program that makes files, folders, hard links, symbolic links into its folder and out
of it, FIFOs and sockets, that writes, cuts off, renames, removes and syncs them, and sets permissions. Of some cuts all choices are made,
or many. All that a walk sees of an image has to be the same where it is served and where it is laid out: names, kinds, permissions, sizes,
contents, numbers of links, texts of links. Then many programs each look at a part of that, and at what hangs on what they found, and write
and rename there. What such a program comes to on a laid-out folder has to be what it came to on the first served image, with as many marks,
that holds the same in all sectors at which it looked there. It needs strace and FUSE, and is no part of the gate.
"""
import argparse
import hashlib
import io
import itertools
import os
import random
import stat
import subprocess
import sys
import tempfile
import zlib
from pathlib import Path

sys.dont_write_bytecode = True

import rooms

rooms.enter()

from commands.each.served_folder import FILES, MAP
from commands.each.served_log import LogImages, text_of
from commands.each.served_mount import Mount
from commands.each.served_server import ENDS, SAID, TOLD, answered, received, sent
from commands.record import named_layout
from commands.record.calls import Refused
from commands.shared import recording
from notation import TOP

RECORDER = TOP / "commands/record/crashbpf-record"
# A program that does some of what programs do to files.
PROGRAM = """\
import os, random, socket, sys
chance, top = random.Random(sys.argv[1]), os.environ["FILES"]
os.chdir(top)
names = ["a", "b", "c" * 200, "in", "in/a", "in/d", "e", "f"]
def fill(name):
    if os.path.exists(name) and not os.path.isfile(name):
        return
    with open(name, chance.choice(["wb", "ab", "r+b"]), buffering=0) as file:
        file.seek(chance.choice([0, 0, 700]))
        file.write(bytes([chance.randrange(1, 256)]) * chance.choice([3, 512, 600, 1500]))
        if chance.random() < 0.3:
            os.fsync(file.fileno())
def cut(name):
    os.truncate(name, chance.choice([0, 1, 512, 900]))
def linked(name):
    os.symlink(chance.choice(["a", "in/a", "/elsewhere", top + "/b", top + "/in"]), name)
def one_more(name):
    os.link(chance.choice(names), name)
def bound(name):
    socket.socket(socket.AF_UNIX).bind(name)
def moved(name):
    os.rename(chance.choice(names), name)
def synced(name):
    folder = os.open(chance.choice([".", "in"]), os.O_RDONLY | os.O_DIRECTORY)
    os.fsync(folder)
    os.close(folder)
acts = [fill] * 5 + [cut, linked, one_more, bound, moved, moved, synced, synced, os.unlink, os.mkfifo, os.mkdir, os.rmdir]
for turn in range(chance.randint(4, 12)):
    try:
        chance.choice(acts)(chance.choice(names))
    except OSError:
        pass
    if chance.random() < 0.2:
        with open(os.environ["RECORDING"] + "/marks", "a") as file:
            file.write(f"0 m{turn}\\n")
for name in names:
    if os.path.lexists(name) and not os.path.islink(name) and chance.random() < 0.3:
        os.chmod(name, chance.choice([0o600, 0o640, 0o755, 0o700]))
"""


def shown(path, name, folder):
    """What is seen of a name: its kind, permissions, number of links, and its size and bytes or its text."""
    it = os.lstat(path)
    found = [name, stat.filemode(it.st_mode), str(it.st_nlink) if not stat.S_ISDIR(it.st_mode) else "-"]
    if stat.S_ISREG(it.st_mode):
        content = Path(os.fsdecode(path)).read_bytes()
        found += [str(it.st_size), hashlib.sha256(content).hexdigest()]
    elif stat.S_ISLNK(it.st_mode):
        found += [os.fsdecode(os.readlink(path)).replace(folder, "$FILES")]
    return " ".join(found)


def walk(folder, _seed):
    """All that is seen of a folder."""
    found = [shown(folder, ".", folder)]
    for top, folders, files in os.walk(folder):
        found += [shown(os.path.join(top, name), os.path.relpath(os.path.join(top, name), folder), folder) for name in sorted(folders + files)]
    return "\n".join(sorted(found)).encode()


def look(folder, chance):
    """Looks at one thing, or writes there, and returns what was found."""
    names = sorted(os.listdir(folder)) if chance.random() < 0.8 else ["a", "b", "in"]
    if not names:
        return b"none"
    path, kind = os.path.join(folder, chance.choice(names)), chance.randrange(8)
    if not os.path.lexists(path):
        return b"nothing"
    it = os.lstat(path)
    if stat.S_ISDIR(it.st_mode):
        return b"in" + look(path, chance)
    if stat.S_ISLNK(it.st_mode):
        return os.fsencode(os.readlink(path)).rpartition(b"/")[2] + (b"good" if os.path.exists(path) else b"bad")
    if not stat.S_ISREG(it.st_mode):
        return b"special"
    if kind == 0:
        return b"%d %o %d" % (it.st_size, it.st_mode, it.st_nlink)
    if kind == 1:
        os.rename(path, os.path.join(folder, "moved"))
        return " ".join(sorted(os.listdir(folder))).encode()
    if kind == 2:
        os.unlink(path)
        return " ".join(sorted(os.listdir(folder))).encode()
    with open(path, "r+b" if kind == 3 else "rb", buffering=0) as file:
        if kind == 3:
            os.pwrite(file.fileno(), b"own", chance.choice([0, 100, 600]))
        return os.pread(file.fileno(), chance.choice([10, 512]), chance.choice([0, 0, 300, 512, 1000]))


def peek(folder, seed):
    """Looks at some things, which hang on what was found before."""
    begun, found = random.Random(seed), 0
    for turn in range(begun.randint(1, 4)):
        found = zlib.crc32(look(folder, random.Random(f"{seed} {turn} {found % 3}")), found)
        if found % 4 == 0:
            break
    return b"%d" % (found % 5)


def told_by(act, folder, seed):
    """What another process finds in a folder."""
    reading, writing = os.pipe()
    process = os.fork()
    if process == 0:
        try:
            os.write(writing, act(folder, seed))
        except BaseException as error:
            os.write(writing, repr(error).replace(folder, "$FILES").encode())
        finally:
            os._exit(0)
    os.close(writing)
    with open(reading, "rb") as file:
        found = file.read()
    os.waitpid(process, 0)
    return found


class Trial:
    """A recording, and the mount on which its images are served."""

    def __init__(self, number, seed, room):
        self.chance, self.room, self.seed = random.Random(f"{seed} {number}"), room, f"{seed} {number}"
        table = self.chance.choice(["ordered", "writeback", "strict", "ext4"])
        words = [RECORDER, "--files", table, f"{room}/it", "--", "/usr/bin/python3", "-c", PROGRAM, self.seed]
        self.done = subprocess.run(words, capture_output=True, text=True, stdin=subprocess.DEVNULL)
        if self.done.returncode == 0:
            it = recording.read(f"{room}/it")
            self.map = Path(it.path(it.map)).read_bytes()
            self.found = named_layout.read_map(self.map.decode())
            self.images = LogImages(it.log(), it.path(it.base) if it.base else None, it.sectors, True)
        self.mount, self.images_seen = None, 0

    def picked(self):
        """Yields images: a cut, and the fates of parts."""
        cuts = range(len(self.images.entries) + 1)
        for cut in self.chance.sample(cuts, min(len(cuts), 5)) + [len(self.images.entries)]:
            parts = self.images.at_risk(cut)
            every = list(itertools.product(["whole", "drop"], repeat=len(parts))) if len(parts) <= 5 else []
            for fates in every or [[self.chance.choice(["whole", "drop"]) for _ in parts] for _ in range(24)]:
                yield cut, {name: fate for name, fate in zip(parts, fates) if fate != "whole"}

    def served(self, cut, choice, act, seed):
        """What is found in the served folder, and the sectors at which was looked, with what they hold."""
        channel, image = self.mount.channels[0], self.images.image(cut, text_of(choice))
        sent(channel, TOLD.pack(0, cut) + text_of(choice).encode())
        assert received(channel) == SAID.pack(0, 0, 0)
        top = Path(self.mount.path, "00")

        def find(folder, begun):
            Path(folder, os.fsdecode(MAP)).write_bytes(self.map)
            files = os.path.join(folder, os.fsdecode(FILES))
            os.mkdir(files)
            return told_by(act, files, begun)

        found = told_by(find, str(top), seed).replace(os.fsencode(top / "files"), b"$FILES")
        sent(channel, TOLD.pack(0, ENDS))
        said = received(channel)
        fault, sectors, _log = answered(said)
        if fault:
            return fault.encode(), {}
        return found, {it: image.sector(it) for it in sectors}

    def plain(self, cut, choice, act, seed):
        """What is found in the folder that is laid out."""
        image = self.images.image(cut, text_of(choice))
        content = b"".join(map(image.sector, range(self.images.sectors)))
        with tempfile.TemporaryDirectory(dir=self.room) as folder:
            try:
                named_layout.Image(io.BytesIO(content), self.found).lay_out(folder)
            except Refused as fault:
                return f"an image can't be laid out: {fault}".encode()
            return told_by(act, folder, seed)

    def differs(self):
        """What isn't as it should be, or None where the recording was refused."""
        if self.done.returncode != 0:
            return None
        self.mount, said = Mount(self.room, self.images, 1), []
        try:
            images = list(self.picked())
            for cut, choice in images:
                served, plain = self.served(cut, choice, walk, 0)[0], self.plain(cut, choice, walk, 0)
                if served != plain:
                    said.append(f"cut {cut} choice {text_of(choice)}: served\n{served.decode()}\nlaid out\n{plain.decode()}")
            for turn in range(4):
                said += self.told_wrong(images, f"{self.seed} {turn}")
            self.images_seen = len(images)
        finally:
            self.mount.end()
        return said

    def told_wrong(self, images, seed):
        """The images on which a program ends otherwise than the record says that tells them."""
        records, said = [], []
        for cut, choice in images:
            image, marks = self.images.image(cut, text_of(choice)), self.images.marks[cut]
            known = next((it for it in records if it[0] == marks and all(image.sector(at) == content for at, content in it[2].items())), None)
            if known is None:
                found, looked = self.served(cut, choice, peek, seed)
                known = (marks, found, looked)
                records.append(known)
            plain = self.plain(cut, choice, peek, seed)
            if plain != known[1]:
                said.append(f"cut {cut} choice {text_of(choice)}, program {seed}: laid out {plain.decode()}, told {known[1].decode()}")
        return said


def main():
    parser = argparse.ArgumentParser(description="Compares served folders with those that are laid out.")
    parser.add_argument("--runs", type=int, default=30)
    parser.add_argument("--seed", type=int, default=1)
    parser.add_argument("--only", type=int)
    parser.add_argument("--first", action="store_true")
    given = parser.parse_args()
    passed = failed = refused = images = 0
    number = given.only or 0
    while passed + failed < (1 if given.only is not None else given.runs) and not (given.first and failed):
        with tempfile.TemporaryDirectory(dir="/dev/shm") as room:
            trial = Trial(number, given.seed, room)
            what = trial.differs()
        images += trial.images_seen
        for line in what or []:
            print(f"run {number}: {line}", flush=True)
        if what is None and given.only is not None:
            print(trial.done.stderr)
            break
        passed, failed, refused = passed + (what == []), failed + bool(what), refused + (what is None)
        number += 1
    print(f"{images} images, {refused} recordings refused")
    print(f"{passed} passed, {failed} failed")
    return 1 if failed else 0


if __name__ == "__main__":
    sys.exit(main())
