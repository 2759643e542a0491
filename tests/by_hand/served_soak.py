#!/usr/bin/env python3
"""Compares images that are served, and what is seen of the looks at them, with plain files, on many random logs and programs.

    python3 tests/by_hand/served_soak.py [--runs N] [--seed S] [--only NUMBER] [--first] [--pages]

N is 100 where it isn't given, S is 1; with `--first` the first run that fails is the last. With `--pages` the kernel reads by page, as one before Linux 6.6 does. A run has a log of up to seven
entries on a device of some sectors, and a program that reads and writes its image in many ways: by calls, by direct reads, by mappings, by
copies in the kernel, by other names and links, in threads. It cuts the file off, makes it larger, punches holes, makes files beside it and
lists them. What it does next hangs on what it has read. It goes round by round on served images until the model known_model.py wants
nothing more. Then each choice of each small cut is judged as a plain file, and has to end as its case says; and an image that is served
ends as its plain file. It needs FUSE and is no part of the gate.
"""
import argparse
import ctypes
import mmap
import os
import random
import struct
import sys
import tempfile
import threading
import zlib
from pathlib import Path

sys.dont_write_bytecode = True

import rooms

rooms.enter()

import known_model
from cases_model import Losses, choices, image_of
from commands.each.served_log import LogImages
from commands.each.served_mount import Mount
from commands.each.served_server import ENDS, SAID, TOLD, answered, received, sent
from known_model import Ended, head_text, record_text, told
from known_soak import is_small, some_entry
from notation import SECTOR, log
from parts_model import WideRun

PAGE = 4096


# What a program does with its image: each takes the path, the size of the device and a chance, and returns bytes


def place(chance, size):
    return chance.randrange(size // SECTOR) * SECTOR + chance.choice([0, 0, 100, 448]), chance.choice([1, 64, 512, 700])


def by_call(path, size, chance):
    with open(path, "rb", buffering=0) as file:
        at, count = place(chance, size)
        return os.pread(file.fileno(), count, at)


def by_mapping(path, size, chance):
    """Reads some bytes of a mapping."""
    with open(path, "rb") as file, mmap.mmap(file.fileno(), 0, access=mmap.ACCESS_READ) as found:
        at, count = place(chance, size)
        return found[at : at + count]


def written(path, size, chance):
    """Writes some bytes, and reads about there."""
    with open(path, "r+b", buffering=0) as file:
        at, count = place(chance, size)
        os.pwrite(file.fileno(), bytes([chance.randrange(256)]) * count, at)
        start = at // SECTOR * SECTOR
        return os.pread(file.fileno(), chance.choice([count, SECTOR]), chance.choice([at, start]))


def written_whole(path, size, chance):
    """Writes a sector in two pieces, and reads it."""
    with open(path, "r+b", buffering=0) as file:
        at = chance.randrange(size // SECTOR) * SECTOR
        os.pwrite(file.fileno(), b"a" * 200, at)
        os.pwrite(file.fileno(), b"b" * 312, at + 200)
        return os.pread(file.fileno(), SECTOR, at)


def written_in_mapping(path, size, chance):
    """Changes a byte of a shared mapping, and reads the sector by a call."""
    with open(path, "r+b", buffering=0) as file:
        at, _count = place(chance, size)
        with mmap.mmap(file.fileno(), 0) as found:
            found[at] = 7
            found.flush()
            return os.pread(file.fileno(), SECTOR, at // SECTOR * SECTOR) + found[at // PAGE * PAGE : at // PAGE * PAGE + 8]


def cut_off(path, size, chance):
    """Makes the file shorter and longer again, and reads over the place."""
    with open(path, "r+b", buffering=0) as file:
        at, _count = place(chance, size)
        os.ftruncate(file.fileno(), at)
        length = os.fstat(file.fileno()).st_size
        os.ftruncate(file.fileno(), size)
        return struct.pack("<Q", length) + os.pread(file.fileno(), 2 * SECTOR, max(at - 600, 0))


def shortened(path, size, chance):
    """Makes the file end within a sector, and reads what is left of that."""
    with open(path, "r+b", buffering=0) as file:
        at = chance.randrange(size // SECTOR) * SECTOR + chance.choice([100, 448])
        os.ftruncate(file.fileno(), at)
        found = os.pread(file.fileno(), SECTOR, at // SECTOR * SECTOR)
        os.ftruncate(file.fileno(), size)
        return found


def punched(path, size, chance):
    """Punches a hole, and reads about it."""
    with open(path, "r+b", buffering=0) as file:
        at, count = place(chance, size)
        ctypes.CDLL(None).fallocate(file.fileno(), 3, ctypes.c_long(at), ctypes.c_long(count))
        return os.pread(file.fileno(), SECTOR, at // SECTOR * SECTOR)


def beyond(path, size, chance):
    """Writes beyond the end, and reads the gap."""
    with open(path, "r+b", buffering=0) as file:
        os.pwrite(file.fileno(), b"end", size + 1000)
        found = os.pread(file.fileno(), 2000, size - 10)
        os.ftruncate(file.fileno(), size)
        return found


def copied(path, size, chance):
    """Copies a stretch to a file beside it, and reads that."""
    other = path + ".copy"
    with open(path, "rb", buffering=0) as file, open(other, "w+b", buffering=0) as target:
        at, count = place(chance, size)
        if chance.random() < 0.5:
            done = os.copy_file_range(file.fileno(), target.fileno(), count, at, 0)
        else:
            os.lseek(file.fileno(), 0, 0)
            done = os.sendfile(target.fileno(), file.fileno(), at, count)
        found = os.pread(target.fileno(), 2000, 0)
    names = sorted(os.listdir(os.path.dirname(path)))
    os.unlink(other)
    return struct.pack("<Q", done) + found + "".join(names).encode()


def renamed(path, size, chance):
    """Reads it by another name, by a hard link and by a symbolic one."""
    folder, other = os.path.dirname(path), path + "2"
    os.mkdir(folder + "/below")
    os.rename(path, folder + "/below/it")
    os.link(folder + "/below/it", other)
    os.symlink("below/it", folder + "/soft")
    found = by_call(other, size, chance) + by_call(folder + "/soft", size, chance) + struct.pack("<Q", os.stat(other).st_nlink)
    os.unlink(folder + "/soft")
    os.rename(other, path)
    os.unlink(folder + "/below/it")
    os.rmdir(folder + "/below")
    return found + struct.pack("<Q", os.stat(path).st_nlink)


def directly(path, size, chance):
    """Reads with O_DIRECT, where the file system has that."""
    try:
        file = os.open(path, os.O_RDONLY | os.O_DIRECT)
    except OSError:
        return by_call(path, size, chance)
    try:
        buffer = mmap.mmap(-1, PAGE)
        os.preadv(file, [memoryview(buffer)[:SECTOR]], place(chance, size)[0] // SECTOR * SECTOR)
        return bytes(buffer[:SECTOR])
    finally:
        os.close(file)


def in_threads(path, size, chance):
    """Reads two places at once."""
    found = [b"", b""]
    places = [place(chance, size), place(chance, size)]

    def read(turn):
        with open(path, "rb", buffering=0) as file:
            found[turn] = os.pread(file.fileno(), places[turn][1], places[turn][0])

    threads = [threading.Thread(target=read, args=(turn,)) for turn in range(2)]
    for it in threads:
        it.start()
    for it in threads:
        it.join()
    return b"".join(found)


ACTS = [by_call, by_call, by_mapping, written, written_whole, written_in_mapping, cut_off, shortened, shortened, punched, beyond, copied, renamed, directly, in_threads]


def act_on(path, size, seed, marks):
    """Does what a program does, and returns its status."""
    begun = random.Random(seed)
    acts = [begun.choice(ACTS) for _ in range(begun.randint(1, 5))]
    found = marks if begun.random() < 0.3 else 0
    for turn, act in enumerate(acts):
        chance = random.Random(f"{seed} {turn} {found % begun.choice([1, 2, 3])}")
        found = zlib.crc32(act(path, size, chance), found)
        if found % begun.randint(2, 6) == 0:
            return found % 3
    return found % 4


def status_of(path, size, seed, marks):
    """What a process that does that ends in."""
    process = os.fork()
    if process == 0:
        status = 99
        try:
            status = act_on(path, size, seed, marks)
        except BaseException as error:
            os.write(2, f"{error!r}\n".encode())
        os._exit(status)
    return os.waitstatus_to_exitcode(os.waitpid(process, 0)[1])


class Trial:
    """A log, a program, and the mount on which images are served."""

    def __init__(self, number, seed, room, is_direct):
        chance = random.Random(f"{seed} {number}")
        sectors = chance.choice([4, 8, 20])
        entries = [some_entry(chance, sectors, chance.sample(range(256), 3)) for _ in range(chance.randint(2, 7))]
        self.run = WideRun(entries, sectors, by=chance.choice(["sector", "write"]), tears=chance.random() < 0.3, base=chance.choice([b"", bytes([9]) * SECTOR]))
        self.losses, self.size, self.seed, self.room = Losses(), SECTOR * sectors, f"{seed} {number} acts", room
        Path(room, "log").write_bytes(log(entries))
        Path(room, "base").write_bytes(self.run.base)
        self.images = LogImages(f"{room}/log", f"{room}/base", sectors, self.run.by == "write")
        self.is_direct = is_direct

    def served(self, mount, image):
        """What the program ends in on a served image, and the sectors at which it looked."""
        channel = mount.channels[0]
        sent(channel, TOLD.pack(0, image.cut) + image.choice().encode())
        assert received(channel) == SAID.pack(0, 0, 0)
        status = status_of(f"{mount.path}/00/image", self.size, self.seed, image.marks())
        sent(channel, TOLD.pack(0, ENDS))
        return status, answered(received(channel))[1]

    def plain(self, image):
        """What it ends in on a plain file."""
        folder = Path(self.room, "plain")
        folder.mkdir()
        path = folder / "image"
        path.write_bytes(image.content())
        status = status_of(str(path), self.size, self.seed, image.marks())
        path.unlink()
        folder.rmdir()
        return status

    def differs(self):
        """What isn't as it should be, or None where there are too many choices."""
        if not is_small(self.run):
            return None
        mount = Mount(self.room, self.images, 1, self.is_direct)
        try:
            text, runs, said = self.rounds(mount)
        except known_model.Refused as fault:
            self.told = 0, 0
            return [f"records are refused, {fault.args[0]} at {fault.args[1]}"]
        finally:
            mount.end()
        it, known = told(self.run, text.encode(), self.losses), {}
        for cut, found in it.cuts():
            for choice in choices(cut):
                image = image_of(self.run, cut.number, choice)
                key = image.content(), image.marks()
                if key not in known:
                    known[key] = Ended(f"answer {self.plain(image)}").text
                own = [ending for case, ending, _good in found.leaves if case.holds(choice)]
                if own and own != [known[key]]:
                    said.append(f"cut {cut.number} choice {image.choice()}: a plain file {known[key]}, its case {own}")
        self.told = runs, len(known)
        return said

    def rounds(self, mount):
        """Goes round by round. Returns the records, how many they are, and where a served image ends otherwise than its plain file."""
        text, runs, said = head_text(known_model.inputs_of(self.run), "acts", "1"), 0, []
        while wanted := known_model.wanted(told(self.run, text.encode(), self.losses)):
            for image in wanted:
                status, looked = self.served(mount, image)
                text += record_text(image, f"answer {status}", looked)
                runs += 1
                if status in (99, 255) or runs % 4 == 0 and status != self.plain(image):
                    said.append(f"cut {image.cut} choice {image.choice()}: served it ends with {status}, as a plain file with {self.plain(image)}")
        return text, runs, said


def main():
    parser = argparse.ArgumentParser(description="Compares served images with plain files.")
    parser.add_argument("--runs", type=int, default=100)
    parser.add_argument("--seed", type=int, default=1)
    parser.add_argument("--only", type=int)
    parser.add_argument("--first", action="store_true")
    parser.add_argument("--pages", action="store_true")
    given = parser.parse_args()
    passed = failed = runs = images = 0
    number = given.only or 0
    while passed + failed < (1 if given.only is not None else given.runs) and not (given.first and failed):
        with tempfile.TemporaryDirectory(dir="/dev/shm") as room:
            trial = Trial(number, given.seed, room, not given.pages)
            what = trial.differs()
        if what is not None:
            runs, images = runs + trial.told[0], images + trial.told[1]
        for line in what or []:
            print(f"run {number}: {line}", flush=True)
        passed, failed = passed + (what == []), failed + bool(what)
        number += 1
    print(f"{runs} served runs tell {images} images")
    print(f"{passed} passed, {failed} failed")
    return 1 if failed else 0


if __name__ == "__main__":
    sys.exit(main())
