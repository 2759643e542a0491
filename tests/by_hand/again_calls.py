#!/usr/bin/env python3
"""Compares what `crashbpf-each --again` notes of calls on the files of an image with what these calls left.

    python3 tests/by_hand/again_calls.py [--runs N] [--seed S] [--only NUMBER]

N is 100 where it isn't given, S is 1. A run has some files, folders and links, served as those of an image, and makes calls on them by chance:
it writes, by O_DSYNC and O_DIRECT too, cuts files off and makes them larger, punches holes, makes, renames, exchanges, links and removes, and
syncs. Then the log that was noted, with nothing lost, has to leave what is there: laid out in a folder, and served once more. It wants FUSE, and
is no part of the gate.
"""
import argparse
import ctypes
import io
import mmap
import os
import random
import stat
import sys
import tempfile
from pathlib import Path

sys.dont_write_bytecode = True

import rooms

rooms.enter()

from commands.each.second_images import LaidImage, SecondImages, SeenImages
from commands.each.second_log import NAME, SecondLog, SecondLogs
from commands.each.served_mount import Mount
from commands.each.served_server import ENDS, TOLD, answered, received, sent
from commands.record import layout, named_layout
from commands.record.disk import Disk
from commands.record.files import Other
from commands.record.orders import Tree

TABLES = ("ext4", "ordered", "xfs", "btrfs", "strict")
SKIPPED = ["passed*"]
LIBRARY = ctypes.CDLL(None, use_errno=True)
EXCHANGE, KEEP, PUNCH, ZERO = 2, 1, 2, 0x10


def first_files(table, chance):
    """Returns the device of some files with names, and its map."""
    joined = {} if table in ("btrfs", "strict") else None
    tree = Tree(table, Disk(), joined)
    folder = tree.begin((0, b"sub"))
    for slot in ((0, b"a"), (0, b"b"), (folder, b"c"), (folder, b"d")):
        tree.begin(slot, bytes([chance.randrange(1, 256)]) * chance.choice([0, 1, 512, 700, 4096, 9000]))
    tree.begin_other((0, b"hard"), tree.now[0, b"a"])
    tree.begin_other((0, b"soft"), tree.new_other(Other("symlink", b"sub/c")))
    laid = named_layout.Laid(tree)
    return laid.image(), laid.map_text().encode(), laid.sectors


def snapshot(top):
    """Returns what is below a folder: of each path what it is, its permissions, its content, and which other names it has."""
    found, names = {}, {}
    for folder, folders, files in os.walk(top):
        for name in (*folders, *files):
            path = os.path.join(folder, name)
            it, below = os.lstat(path), os.path.relpath(path, top)
            if "passed" in below:
                continue
            content = os.readlink(path) if stat.S_ISLNK(it.st_mode) else Path(path).read_bytes() if stat.S_ISREG(it.st_mode) else ""
            found[below] = stat.S_IFMT(it.st_mode), content if stat.S_ISREG(it.st_mode) or content else ""
            if stat.S_ISREG(it.st_mode):
                names.setdefault(it.st_ino, []).append(below)
    return found, sorted(map(sorted, names.values()))


class Calls:
    """Calls by chance on the files below a folder."""

    def __init__(self, top, chance, skipped):
        self.top, self.chance, self.skipped, self.made = top, chance, skipped, 0

    def paths(self, wants_folder):
        """Returns the paths of all folders, or of all else."""
        found = []
        for folder, folders, files in os.walk(self.top):
            found += [os.path.join(folder, it) for it in (folders if wants_folder else files)]
        return found

    def some(self, wants_folder=False):
        found = [it for it in self.paths(wants_folder) if wants_folder or not os.path.islink(it) and "passed" not in it]
        return self.chance.choice(found) if found else None

    def new(self, may_pass=True):
        """Returns a new name, which may be one that isn't recorded."""
        self.made += 1
        folder = self.chance.choice([self.top, *self.paths(True)])
        return os.path.join(folder, self.chance.choice(["n", "n", "n", "passed" if may_pass and self.skipped else "n"]) + str(self.made))

    def one(self):
        """Makes a call, which may fail."""
        act = self.chance.choice(["write"] * 5 + ["resize", "resize", "make", "make", "truncate", "rename", "rename", "replace", "exchange", "link", "symlink", "remove", "mkdir", "rmdir", "sync", "sync", "syncdir", "punch", "move"])
        try:
            getattr(self, act)()
        except OSError:
            pass

    def opened(self, flags=0):
        path = self.some()
        return None if path is None else os.open(path, os.O_RDWR | flags)

    def write(self):
        """Writes some bytes, by the page cache or past it, durably or not."""
        direct = self.chance.random() < 0.2
        file = self.opened(os.O_DSYNC * (self.chance.random() < 0.2) | os.O_DIRECT * direct)
        if file is None:
            return
        at, size = self.chance.choice([0, 100, 512, 600, 4096, 5000, 20000]), self.chance.choice([1, 512, 700, 4096, 8192])
        data = bytes([self.chance.randrange(256)]) * size
        if direct:
            at, data = at // 512 * 512, mmap.mmap(-1, -(-size // 512) * 512)
        os.pwrite(file, data, at)
        os.close(file)

    def resize(self):
        os.truncate(self.some() or "/none", self.chance.choice([0, 1, 300, 512, 1000, 4096, 6000, 30000]))

    def make(self):
        Path(self.new()).write_bytes(b"new" * self.chance.choice([0, 10, 300]))

    def truncate(self):
        Path(self.some() or "/none/none").write_bytes(b"anew")

    def rename(self):
        os.rename(self.some() or "/none", self.new(False))

    def replace(self):
        os.rename(self.some() or "/none", self.some() or "/none")

    def move(self):
        os.rename(self.some(True) or "/none", self.new(False))

    def exchange(self):
        one, other = self.some(), self.some(self.chance.random() < 0.3)
        if one and other:
            LIBRARY.renameat2(-100, os.fsencode(one), -100, os.fsencode(other), EXCHANGE)

    def link(self):
        os.link(self.some() or "/none", self.new(False))

    def symlink(self):
        os.symlink(self.chance.choice(["a", "sub", f"{self.top}/b"]), self.new())

    def remove(self):
        os.unlink(self.some() or "/none")

    def mkdir(self):
        os.mkdir(self.new())

    def rmdir(self):
        os.rmdir(self.some(True) or "/none")

    def sync(self):
        """Syncs a file, or its data."""
        file = self.opened()
        if file is not None:
            self.chance.choice([os.fsync, os.fdatasync])(file)
            os.close(file)

    def syncdir(self):
        file = os.open(self.chance.choice([self.top, *self.paths(True)]), os.O_RDONLY)
        os.fsync(file)
        os.close(file)

    def punch(self):
        """Makes a hole, or zeros."""
        file = self.opened()
        if file is not None:
            mode = self.chance.choice([PUNCH | KEEP, ZERO, ZERO | KEEP, 0, KEEP])
            LIBRARY.fallocate(file, mode, ctypes.c_long(self.chance.choice([0, 100, 512, 4096])), ctypes.c_long(self.chance.choice([1, 512, 5000])))
            os.close(file)


class Trial:
    """A run: a mount with one runner, and a chance."""

    why = None

    def __init__(self, room, chance):
        self.room, self.chance, self.skipped = room, chance, chance.choice([(), SKIPPED])
        table = chance.choice(TABLES)
        image, self.map, sectors = first_files(table, chance)
        Path(room, "base").write_bytes(image)
        parts, _large = layout.log_of([], {}, sectors)
        Path(room, "log").write_bytes(b"".join(parts))
        self.images = SeenImages(Path(room, "log"), Path(room, "base"), sectors, True)

    def served(self, mount, choice, act):
        """Serves the files of an image, and does something with them. Returns what that comes to, and what was noted."""
        channel, top = mount.channels[0], f"{mount.path}/00"
        sent(channel, TOLD.pack(0, 0) + choice.encode())
        received(channel)
        Path(top, "files.map").write_bytes(self.map)
        os.mkdir(f"{top}/files")
        found = act(f"{top}/files")
        sent(channel, TOLD.pack(0, ENDS))
        return found, answered(received(channel))[2]

    def called(self, top):
        """Makes calls, and returns what is there then."""
        calls = Calls(top, self.chance, self.skipped)
        for _ in range(self.chance.randint(3, 40)):
            calls.one()
        return snapshot(top)

    def differs(self):
        """Returns what is otherwise, or None."""
        mount = Mount(self.room, self.images, 1, logs=SecondLogs(self.skipped))
        try:
            wanted, content = self.served(mount, "-", self.called)
            name, log = content[:NAME].decode(), SecondLog(content[NAME:], self.images.image(0, "-"))
            if log.why or not log.entries:
                self.why = log.why
                return None
            image = SecondImages(self.images, 0, log, name).image_of(len(log.entries), {})
            if log.laid is None:
                return "the log has no device"
            again, _content = self.served(mount, f"- then cut {len(log.entries)} choice - of {name} {log.view}", snapshot)
        finally:
            mount.end()
        with tempfile.TemporaryDirectory() as folder:
            laid = LaidImage(image)
            named_layout.Image(io.BytesIO(b"".join(map(laid.sector, range(laid.sectors)))), log.laid.found).lay_out(folder)
            plain = snapshot(folder)
        return "".join(f"{what}: {of_names(found, wanted)} " for what, found in (("laid out", plain), ("served", again)) if found != wanted) or None


def of_names(found, wanted):
    """Returns what differs of two snapshots."""
    names = {it for it in {**found[0], **wanted[0]} if found[0].get(it) != wanted[0].get(it)}
    return [(it, str(found[0].get(it))[:80], str(wanted[0].get(it))[:80]) for it in sorted(names)] or (found[1], wanted[1])


def main():
    parser = argparse.ArgumentParser(description="Compares calls that are noted with what they left.")
    parser.add_argument("--runs", type=int, default=100)
    parser.add_argument("--seed", type=int, default=1)
    parser.add_argument("--only", type=int)
    given, failed, reasons = parser.parse_args(), 0, {}
    numbers = range(given.runs) if given.only is None else [given.only]
    for number in numbers:
        with tempfile.TemporaryDirectory(dir="/dev/shm") as room:
            trial = Trial(room, random.Random(f"{given.seed} {number}"))
            said = trial.differs()
        reasons[trial.why] = reasons.get(trial.why, 0) + 1
        failed += bool(said)
        if said:
            print(f"run {number}: {said}"[:1500], flush=True)
    for why, count in reasons.items():
        print(f"{count} aren't explored: {why}" if why else f"{count} are")
    print(f"{len(numbers) - failed} passed, {failed} failed")
    return 1 if failed else 0


if __name__ == "__main__":
    sys.exit(main())
