#!/usr/bin/env python3
"""Compares the tables of docs/RECORDING.md with file systems: what a crash leaves of ext4, xfs and btrfs is among what they allow.

    python3 tests/by_hand/names_in_guest.py FOLDER KERNEL [KIND..] [PROGRAM..]

Programs of a few calls on files are recorded by strace, by each table, and in a guest on each kind of file system. Each crash image
of the guest is recovered: ext4 by e2fsck, the others by mounting it in a machine. The files that are there then have to be those
of an image of the log by strace, after as many marks.

A row for each program has the images of the guest, how many of them the kind's table doesn't allow, the states of the files that
differ, how many of these each table allows, and how many states the kind's table allows in all, 0 where these aren't counted. The
last row of a kind has the sums. The status is 1 where a state isn't allowed, or an image can't be recovered. FOLDER/KIND.seen has what was found on each
image, and FOLDER/KIND.cutC.imageN those that aren't allowed.

FOLDER keeps the recordings, so that a run may be gone on with. KERNEL is a folder with boot/vmlinuz-* and lib/modules, as
`dpkg -x linux-image-*.deb KERNEL` makes it. It wants crashbpf on the path, or as $CRASHBPF, what `guest` and `mounted` want,
strace, and a C compiler that links statically (Debian: qemu-system-x86, busybox-static, cpio, dmsetup, e2fsprogs, xfsprogs,
btrfs-progs, strace, gcc). CUTS=flush takes the images of the cuts before a flush alone, and BOUND=2 those that lack two writes, too.

By hand: without hardware virtualization a guest took half a minute for each kind. With CUTS=flush the images of an ext4 took a
minute, those of xfs two, and those of btrfs eighteen beside other work, as each is mounted. All cuts have six times as many images.
"""
import functools
import itertools
import json
import math
import os
import re
import shutil
import subprocess
import sys
import tempfile
import time
from dataclasses import dataclass
from pathlib import Path

sys.dont_write_bytecode = True

import rooms

rooms.enter()

import named_model
from notation import FLUSH, FUA, MARK, SECTOR, TOP
from rows.recording import entries_of

from commands.record import named_layout
from commands.each.image_file import ImageFile
from machine import Lost, Machine, Slow
from commands.record.orders import TABLES
from commands.each.stream import images, inputs

BTRFS = "xxhash_generic blake2b_generic zstd_compress raid6_pq xor btrfs"
EXT4 = "mkfs.ext4 -q -F -E nodiscard"


@dataclass(frozen=True)
class Kind:
    """A kind of file system: its table, which is to allow what it leaves, its sectors, how it is made and mounted, its modules. A write
    outside its journal takes `slow` milliseconds. On a disk that is nearly full `left` blocks of 4,096 bytes are free; 0 is any other disk.
    `runs` says which programs run on it."""

    table: str
    sectors: int
    make: str
    mount: str
    modules: str = ""
    slow: int = 0
    left: int = 0
    runs: str = "usual"

    @property
    def by_e2fsck(self):
        """Whether e2fsck recovers it. e2fsck 1.47.0 leaves a wrong super block where a fast commit isn't whole."""
        return self.make.startswith("mkfs.ext4") and "fast_commit" not in self.make


KINDS = {
    "ext4-ordered": Kind("ordered", 16384, EXT4, "data=ordered,commit=1"),
    "ext4-writeback": Kind("writeback", 16384, EXT4, "data=writeback,commit=1"),
    # (these have blocks of 4,096 bytes: dioread_nolock, which is the default then, and without it)
    "ext4-4096": Kind("ext4", 32768, f"{EXT4} -b 4096", "data=ordered,commit=1,dioread_nolock"),
    "ext4-4096-lock": Kind("ordered", 32768, f"{EXT4} -b 4096", "data=ordered,commit=1,dioread_lock"),
    "ext4-fast": Kind("strict", 32768, f"{EXT4} -b 4096 -O fast_commit", "data=ordered,commit=1"),
    "xfs": Kind("xfs", 614400, "mkfs.xfs -q -f", "noatime", "xfs"),
    "btrfs": Kind("btrfs", 233472, "mkfs.btrfs -q", "commit=1", BTRFS),
    # (here bytes are written after the commit, and what was freed is used again before it)
    "ext4-slow": Kind("ext4", 32768, f"{EXT4} -b 4096", "data=ordered,commit=30,dioread_nolock", slow=1500),
    "ext4-lock-slow": Kind("ordered", 32768, f"{EXT4} -b 4096", "data=ordered,commit=30,dioread_lock", slow=1500),
    "ext4-writeback-slow": Kind("writeback", 16384, EXT4, "data=writeback,commit=30", slow=1500),
    "ext4-full": Kind("ext4", 32768, f"{EXT4} -b 4096", "data=ordered,commit=30,dioread_nolock", left=20),
    "ext4-writeback-full": Kind("writeback", 32768, f"{EXT4} -b 4096", "data=writeback,commit=30,dioread_lock", left=20),
    # (these have programs of their own)
    "xfs-more": Kind("xfs", 614400, "mkfs.xfs -q -f", "noatime", "xfs", runs="more"),
    "btrfs-more": Kind("btrfs", 233472, "mkfs.btrfs -q", "commit=1", BTRFS, runs="more"),
    "ext4-parts": Kind("ext4", 32768, f"{EXT4} -b 4096", "data=ordered,commit=1,dioread_nolock", runs="parts"),
    "ext4-lock-parts": Kind("ordered", 32768, f"{EXT4} -b 4096", "data=ordered,commit=1,dioread_lock,nodelalloc", runs="parts"),
    "ext4-writeback-parts": Kind("writeback", 32768, f"{EXT4} -b 4096", "data=writeback,commit=1,dioread_lock", runs="parts"),
    "xfs-parts": Kind("xfs", 614400, "mkfs.xfs -q -f", "noatime", "xfs", runs="parts"),
    "btrfs-parts": Kind("btrfs", 233472, "mkfs.btrfs -q", "commit=1", BTRFS, runs="parts"),
}
PROGRAMS = {
    "replaced": "open new,append new 700 A,fsync new,rename new kept,mark 1,open new,append new 1500 B,fsync new,rename new kept,mark 2,append other 100 x,fsync other,mark 3",
    "loose": "open new,append new 700 A,rename new kept,mark 1,append other 100 x,fsync other,mark 2,sleep 300,folder .,mark 3",
    "folder": "open new,append new 5000 A,fsync new,folder .,mark 1,rename new kept,folder .,mark 2",
    "appended": "open log,append log 300 A,append log 300 B,append other 50 x,fsync other,mark 1,append log 5000 C,sleep 300,append log 300 D,fdatasync log,mark 2,append log 300 E",
    "journal": "open j,append j 4096 A,fsync j,folder .,mark 1,write kept 0 512 K,fsync kept,unlink j,mark 2,append other 50 x,fsync other,mark 3,open j,append j 900 B,write kept 512 100 L,fsync kept",
    "shorter": "truncate kept 0,append kept 900 A,append other 50 x,fsync other,mark 1,truncate kept 100,append kept 50 B,sleep 300,append kept 4000 C,fsync kept,mark 2,truncate kept 600,append kept 20 D,sleep 300",
    "folders": "mkdir d,open d/x,append d/x 600 A,rename d e,append other 50 x,fsync other,mark 1,link e/x y,fsync d/x,mark 2,unlink e/x,rmdir e,folder .,mark 3,append d/x 20 B",
    "many": "open a,open b,append a 200 A,append b 200 B,fdatasync b,mark 1,rename a c,append b 700 C,open a,append a 10 D,fsync a,mark 2,unlink c,rename b c,sleep 300,append a 4500 E",
    "moved": "open a,append a 600 A,fsync a,mark 1,mkdir d,rename a d/b,append other 50 x,fsync other,mark 2,open c,append c 300 C,rename d/b d/e,append d/b 20 B,fsync c,mark 3,rename kept d/b,fsync d/b,mark 4",
    # (an append of which the size arrives before the bytes do; blocks that are used again; a name that is synced by its file)
    "late": "open log,append log 65536 A,range log,append other 50 x,fsync other,mark 1,sleep 300",
    "reused": "open big,append big 61440 A,fsync big,close big,folder .,mark 1,open new,append new 100 B,fsync new,rename new big,mark 2,open next,append next 61440 C,range next,sleep 300,mark 3",
    "cut": "open big,append big 61440 A,fsync big,folder .,mark 1,truncate big 0,open next,append next 61440 C,range next,sleep 300,mark 2",
    "renamed": "open new,append new 700 A,fsync new,rename new kept,fsync kept,mark 1",
    "renamed-data": "open new,append new 700 A,fsync new,rename new kept,fdatasync kept,mark 1",
    # (xfs changes neither of two files whose names are exchanged)
    "exchanged": "open new,append new 700 A,fsync new,folder .,mark 1,exchange new kept,fsync new,mark 2,sleep 300",
    # (btrfs may leave the second file alone)
    "followed": "open a,append a 200 A,rename a b,open a,append a 100 B,fsync a,mark 1,sleep 300",
    # (here what the file systems write by themselves, after a second, stands in the log)
    "slow": "open a,append a 5000 A,sleep 1600,append a 300 B,rename a b,open c,append c 600 C,sleep 1600,append b 9000 D,rename c kept,sleep 1600,mark 1,unlink b,append other 4000 E,truncate kept 200,sleep 1600",
}
# Those that use names again, for files and for folders, move and link what was synced, and sync by another name.
MORE = {
    "crossed": "mkdir d,mkdir e,open d/a,append d/a 300 A,fsync d/a,folder .,folder d,mark 1,rename d/a e/a,folder d,mark 2,rename e/a d/b,folder d,mark 3,rename d/b e/c,folder e,mark 4",
    "linked": "open a,append a 300 A,fsync a,mark 1,link a b,unlink a,fsync a,mark 2,link b c,unlink b,open b,append b 100 B,fsync b,mark 3,sleep 300",
    "dirs": "mkdir d,open d/a,append d/a 200 A,fsync d/a,mark 1,rename d e,mkdir d,open d/c,append d/c 100 C,fsync d/c,mark 2,sleep 300",
    "removed": "mkdir d,open d/a,append d/a 100 A,fsync d/a,mark 1,unlink d/a,rmdir d,open d,append d 100 B,fsync d,mark 2,sleep 300",
    "chain": "open a,append a 100 A,fsync a,folder .,mark 1,rename a b,open a,append a 100 C,rename a c,open a,append a 100 D,fsync a,mark 2,sleep 300",
    "three": "open a,append a 100 A,open b,append b 100 B,fsync a,fsync b,folder .,mark 1,rename a t,rename b a,rename t b,fsync a,mark 2,fsync b,mark 3,sleep 300",
    "deeper": "mkdir d,mkdir d/e,open d/e/x,append d/e/x 100 A,fsync d/e/x,mark 1,rename d/e f,open f/y,append f/y 50 B,fsync f/y,mark 2,sleep 300",
    "two": "mkdir d,open a,append a 100 A,link a d/a,fsync a,mark 1,unlink a,folder d,mark 2,folder .,mark 3",
    "again": "open a,append a 100 A,fsync a,folder .,mark 1,rename a b,rename b a,append other 50 x,fsync other,mark 2,rename a b,fsync a,mark 3,open a,append a 30 C,fsync a,mark 4",
    "over": "open a,append a 100 A,open b,append b 100 B,fsync a,fsync b,folder .,mark 1,rename a c,rename b a,fsync b,mark 2,open b,append b 30 C,fsync b,mark 3,rename c b,fsync kept,mark 4",
    "unsaved": "open a,append a 100 A,unlink kept,rename a kept,fsync other,append other 10 x,fsync other,mark 1,open b,append b 200 B,rename b kept,append other 10 y,fsync other,mark 2,fsync b,mark 3",
    "gone": "open a,append a 100 A,fsync a,mark 1,unlink a,append other 10 x,fsync other,mark 2,open a,append a 50 B,append other 10 y,fdatasync other,mark 3,fsync a,mark 4",
    "grown": "append kept 9000 A,fsync kept,mark 1,truncate kept 5000,truncate kept 9700,append kept 100 B,range kept,append other 10 x,fsync other,mark 2,sleep 300,write kept 4000 200 C,fdatasync kept,mark 3,truncate kept 100,sleep 300",
    "holes": "open h,write h 20000 100 A,append other 10 x,fsync other,mark 1,write h 4090 20 B,sleep 300,fdatasync h,mark 2,truncate h 30000,write h 25000 100 C,range h,sleep 300,mark 3",
    "swapped": "mkdir d,open d/a,append d/a 100 A,fsync d/a,mkdir e,open e/b,append e/b 100 B,fsync e/b,folder .,mark 1,exchange d e,fsync d/a,mark 2,open d/c,append d/c 30 C,fsync d/c,mark 3,sleep 300",
    "covered": "mkdir d,mkdir e,open d/a,append d/a 100 A,fsync d/a,folder .,mark 1,rename d e,open e/b,append e/b 50 B,fsync e/b,mark 2,sleep 300",
    "unlinked": "open a,append a 100 A,fsync a,folder .,mark 1,append a 50 B,unlink a,fsync a,mark 2,sleep 300",
    "entered": "open a,append a 100 A,fsync a,folder .,mark 1,mkdir d,rename a d/a,fsync a,mark 2,mkdir f,mkdir f/e,rename f g,rename d/a g/e/a,fsync a,mark 3",
    "joined": "open a,append a 100 A,fsync a,folder .,mark 1,mkdir d,link a d/b,fsync a,mark 2,unlink a,fsync a,mark 3,sleep 300",
    "sized": "open a,append a 5000 A,fsync a,folder .,mark 1,rename a b,append a 5000 B,fdatasync a,mark 2,sleep 300",
    "turned": "open new,append new 700 A,fsync new,folder .,mark 1,exchange new kept,append new 100 B,fsync new,mark 2,exchange new kept,fdatasync new,mark 3,sleep 300",
    "within": "mkdir d,open d/a,append d/a 500 A,folder d,mark 1,open d/b,append d/b 300 B,rename d/b d/a,folder d,mark 2,folder .,mark 3",
    "taken": "mkdir d,open d/a,append d/a 100 A,fsync d/a,folder .,mark 1,rename d/a a,rmdir d,open d,append d 20 B,fsync d,mark 2,fsync a,mark 3",
    "parent": "mkdir d,mkdir d/e,open d/e/a,append d/e/a 100 A,fsync d/e/a,folder .,mark 1,rename d/e/a d/a,rmdir d/e,rename d/a d/e,fsync d/e,mark 2,append d/e 100 B,fdatasync d/e,mark 3",
    "back": "open a,append a 100 A,open b,append b 100 B,fsync a,fsync b,folder .,mark 1,rename a c,rename b a,rename c b,append a 10 C,fdatasync a,mark 2,append b 10 D,fsync b,mark 3",
    "stays": "open a,append a 100 A,link a b,fsync a,folder .,mark 1,rename kept a,fsync kept,mark 2,rename b kept,append kept 10 C,fsync a,mark 3",
}
# Those that write out parts of a file, make it shorter and longer again, and reserve room.
PARTS = {
    "through": "open f,append f 4096 A,fsync f,folder .,mark 1,mkdir d,write f 4096 4096 B,through f 0 10 B,mark 2,sleep 300",
    "through-middle": "open f,append f 4096 A,fsync f,folder .,mark 1,mkdir d,append f 12288 B,mkdir e,through f 8192 10 C,mark 2,sleep 300",
    "through-end": "open f,fsync f,folder .,mark 1,mkdir d,append f 100 A,mkdir e,through f 100 50 B,mark 2,truncate f 60,mkdir g,through f 0 10 C,mark 3,sleep 300",
    "gap": "open f,folder .,mark 1,write f 8192 4096 B,write f 0 4096 A,part f 0 4096,append other 10 x,fsync other,mark 2,sleep 300",
    "gap-after": "open f,append f 100 A,fsync f,folder .,mark 1,append f 100 B,write f 20480 100 C,part f 0 4096,append other 10 x,fsync other,mark 2,write f 9000 100 D,part f 8192 4096,append other 10 x,fsync other,mark 3,sleep 300",
    "taken-back": "open f,fsync f,folder .,mark 1,mkdir d,append f 100 A,truncate f 0,fdatasync f,mark 2,sleep 300",
    "taken-half": "open f,append f 4096 A,fsync f,folder .,mark 1,append f 8192 B,part f 4096 4096,mkdir d,truncate f 8192,fdatasync f,mark 2,sleep 300",
    "cut-grown": "open f,append f 4096 A,fsync f,folder .,mark 1,truncate f 100,write f 200 10 B,append other 10 x,fsync other,mark 2,sleep 300",
    "cut-part": "open f,append f 8192 A,fsync f,folder .,mark 1,truncate f 100,write f 4096 4096 B,part f 4096 4096,sleep 1500,append other 10 x,fsync other,mark 2,sleep 300",
    "cut-longer": "open f,append f 4096 A,fsync f,folder .,mark 1,truncate f 100,truncate f 3000,append other 10 x,fsync other,mark 2,through f 2900 10 B,mark 3,sleep 300",
    "reserved": "open f,folder .,mark 1,reserve f 0 40960,append other 10 x,fsync other,mark 2,mkdir d,through f 0 10 A,mark 3,truncate f 100,reserve f 50 9000,fdatasync f,mark 4,sleep 300",
    "across": "mkdir d,mkdir e,open d/a,append d/a 300 A,fsync d/a,folder .,folder d,folder e,mark 1,sleep 1200,rename d/a e/c,folder e,mark 2,open d/a,append d/a 20 B,folder d,mark 3,rename e/c d/b,folder d,mark 4,sleep 300",
}
EVERY = PROGRAMS | MORE | PARTS
# Those of which a slow or a full disk is to show something; and those whose states are too many to be counted.
LATE = ("late", "reused", "cut", "renamed", "renamed-data", "followed")
UNCOUNTED = ("late", "reused", "cut", "slow")
# How long a machine may take to come up, and to test an image.
START_SECONDS, TEST_SECONDS = 900, 300
ENVIRONMENT = {**os.environ, "PATH": f"{os.environ['PATH']}:/usr/sbin:/sbin"}


def programs_of(kind):
    """The programs that run on a kind of file system."""
    it = KINDS[kind]
    return LATE if it.slow or it.left else tuple({"usual": PROGRAMS, "more": MORE, "parts": PARTS}[it.runs])


def lines_of(name):
    """The lines of a program, with its name in its marks."""
    return "".join(re.sub(r"^mark ", f"mark {name}:", it) + "\n" for it in EVERY[name].split(","))


def run(words, **options):
    done = subprocess.run(words, capture_output=True, text=True, errors="replace", **{"env": ENVIRONMENT, **options})
    return done


def wanted(done, what):
    if done.returncode:
        sys.exit(f"{what}: status {done.returncode}, {done.stdout}{done.stderr}")
    return done.stdout


# What the tables allow


def traced(folder, name):
    """Records a program by strace, by each table."""
    base = folder / "base"
    base.mkdir(exist_ok=True)
    (base / "kept").write_bytes(b"o" * 700)
    (base / "other").write_bytes(b"")
    for table in TABLES:
        out = folder / f"{name}.{table}"
        if not (out / "writes.log").exists():
            script = f"{folder}/names $FILES <<'END'\n{lines_of(name)}END\n"
            # (the program has its files open from the start)
            done = run([TOP / "commands/record/crashbpf-record", "--files", table, "--base", base, out, "--", "sh", "-c", script])
            wanted(done, f"{name}, {table}")


@functools.cache
def allowed_by(folder, name, table):
    """The log by strace, as the model reads it."""
    out = Path(folder, f"{name}.{table}")
    kinds = {MARK: "mark", FLUSH: "flush", FUA: "fua", 0: "write"}
    entries = [(kinds[it.flags], it.sector, it.data) for it in entries_of((out / "writes.log").read_bytes())]
    sets, *_ = named_layout.read_map((out / "files.txt").read_text())
    return entries, (out / "base.img").read_bytes(), [(it.sector, it.slots) for it in sets]


def less(box, other):
    """What a box has that another hasn't, as boxes that have nothing in common. A box is a list of sets; it has each choice of one
    from each set."""
    if any(it.isdisjoint(its) for it, its in zip(box, other)):
        return [box]
    found, rest = [], list(box)
    for at, (it, its) in enumerate(zip(box, other)):
        if it - its:
            found.append((*rest[:at], it - its, *rest[at + 1 :]))
        rest[at] = it & its
    return found


def size_of_union(boxes):
    """How many choices some boxes have together."""
    apart = []
    for box in sorted(boxes, key=lambda it: -math.prod(map(len, it))):
        pieces = [box]
        for other in apart:
            pieces = [it for piece in pieces for it in less(piece, other)]
        apart += pieces
    return sum(math.prod(map(len, it)) for it in apart)


def contents_of(reader, number):
    """The contents that a file may have: of each size the sets of what each sector may hold."""
    for size, first in reader.chain(number):
        yield size, tuple(frozenset(it[: size - SECTOR * at] for it in reader.sector(first + at)) for at in range(-(-size // SECTOR)))


@functools.cache
def states_of(folder, name, table):
    """How many states of the files a table allows, with the marks before them. They are too many to be listed."""
    entries, base, names = allowed_by(folder, name, table)
    marks, boxes = 0, {}
    for cut in range(len(entries) + 1):
        marks += cut > 0 and entries[cut - 1][0] == "mark"
        reader = named_model.Reader(base, named_model.kept_at(entries, base, cut), names)
        for held in reader.states():
            paths = reader.paths(held)
            numbers = sorted({it for it in paths.values() if it is not None})
            for chosen in itertools.product(*(contents_of(reader, it) for it in numbers)):
                sizes = {number: size for number, (size, _) in zip(numbers, chosen)}
                which = marks, frozenset((path, number is not None and (number, sizes[number])) for path, number in paths.items())
                boxes.setdefault(which, set()).add(tuple(it for _, sets in chosen for it in sets))
    return sum(map(size_of_union, boxes.values()))


# What the guest leaves


def journal_of(base):
    """The pieces of the journal of an ext4, in their order: of each the first sector and the sector after it."""
    said = wanted(run(["debugfs", "-R", "stat <8>", base]), "debugfs")
    size = int(re.search(r"(?m)^Block size: +(\d+)", wanted(run(["dumpe2fs", "-h", base]), "dumpe2fs"))[1])
    found = re.findall(r"\(\d+(?:-\d+)?\):(\d+)(?:-(\d+))?", said)
    return sorted((int(first) * size // SECTOR, (int(last or first) + 1) * size // SECTOR) for first, last in found)


def slow_lines(kind, base):
    """The lines by which a guest has a device of which all but the journal is slow to write."""
    it, watched, at, table = KINDS[kind], "/dev/mapper/watched", 0, []

    def slow(begin, end):
        return [f"{begin} {end - begin} delay {watched} {begin} 0 {watched} {begin} {it.slow} {watched} {begin} 0"] if end > begin else []

    for first, last in journal_of(base):
        table += [*slow(at, first), f"{first} {last - first} linear {watched} {first}"]
        at = last
    table += slow(at, it.sectors)
    return ["dmsetup create slow --noudevsync <<'END' && dmsetup mknodes || exit 1", *table, "END", "DEVICE=/dev/mapper/slow"]


# (else blocks that are kept back would be used)
FULL = """\
echo 0 | tee /sys/fs/ext4/*/reserved_clusters >/dev/null
rm -f /mnt/fill && sync && free=$(stat -f -c %%f /mnt)
until fallocate -l $((4096 * free)) /mnt/fill 2>/dev/null; do
    rm -f /mnt/fill && sync && free=$((free - 4))
    [ $free -gt 0 ] || exit 1
done
rm -f /mnt/fill && sync && fallocate -l $((4096 * (free - %d))) /mnt/fill || exit 1"""


def guest_script(kind, base):
    """The script of the guest: all programs, one after the other, each in its folder."""
    it = KINDS[kind]
    # (a file system is to write soon what it has: bytes after some 50 ms, unless parts are to be written alone, and xfs its log after a second)
    lines = ["echo 5 >/proc/sys/vm/dirty_writeback_centisecs", "echo 5 >/proc/sys/vm/dirty_expire_centisecs"] if it.runs != "parts" else []
    lines += ["[ ! -e /proc/sys/fs/xfs ] || echo 100 >/proc/sys/fs/xfs/xfssyncd_centisecs"]
    lines += slow_lines(kind, base) if it.slow else []
    lines += [f"mount -o {it.mount} $DEVICE /mnt || exit 1", "cat /proc/fs/ext4/*/options >/dev/console 2>/dev/null"]
    for name in programs_of(kind):
        lines += [f"mkdir /mnt/{name} && head -c 700 /dev/zero | tr '\\0' o >/mnt/{name}/kept && : >/mnt/{name}/other || exit 1"]
    for name in programs_of(kind):
        lines += [FULL % it.left] if it.left else []
        lines += ["sync", f"mark {name}:begin", f"names /mnt/{name} <<'END' || exit 1", lines_of(name) + "END", f"mark {name}:end", "sync", f"mark {name}:synced"]
    return "\n".join([*lines, "umount /mnt", *(["dmsetup remove --noudevsync slow"] if it.slow else []), ""])


CHECK = """\
mount -o %s $DEVICE /mnt || exit 1
names list /mnt/$MARK || exit 2
umount /mnt || exit 3
"""


def recorded(folder, kernel, kind):
    """Records all programs in a guest."""
    it = KINDS[kind]
    out, base, script = folder / f"guest.{kind}", folder / f"{kind}.img", folder / f"{kind}.sh"
    if not (out / "writes.log").exists():
        wanted(run(["sh", "-c", f"rm -rf {out} {base}; truncate -s {512 * it.sectors} {base} && {it.make} {base}"]), kind)
        script.write_text(guest_script(kind, base))
        environment = {**ENVIRONMENT, "COMMANDS": "names", "MODULES": f"{it.modules} dm-delay" if it.slow else it.modules, "BASE": str(base), "TIMEOUT": os.environ.get("TIMEOUT", "1500")}
        environment["PATH"] = f"{folder}:{environment['PATH']}"
        wanted(run([TOP / "examples/recording/guest", kernel, str(it.sectors), out, script], env=environment), f"the guest of {kind}")
    return out / "writes.log", base


class Unreadable(Exception):
    """The files of an image can't be read."""


def files_by_debugfs(image, name):
    """The files of a program on an ext4, once e2fsck has replayed its journal."""
    with tempfile.TemporaryDirectory() as room:
        copy, files = f"{room}/image", f"{room}/files"
        image.copy(copy)
        done = run(["e2fsck", "-fy", copy])
        if done.returncode & ~1:
            raise Unreadable(f"e2fsck: {done.stdout}")
        os.mkdir(files)
        run(["debugfs", "-R", f"rdump /{name} {files}", copy])
        found, top = {}, os.path.join(os.fsencode(files), name.encode())
        for here, folders, names in os.walk(top):
            for it in folders + names:
                path = os.path.join(here, it)
                found[os.path.relpath(path, top)] = None if it in folders else Path(os.fsdecode(path)).read_bytes()
        return found


def files_by_mount(image, name, machine):
    """The files of a program on another file system, which a machine mounts."""
    with Machine.free([machine]) as it:
        it.say_hello(START_SECONDS)
        it.patch(image.path)
        try:
            status, said = it.test(0, name.encode(), TEST_SECONDS)
        except (Lost, Slow):
            raise Unreadable(f"the kernel stopped: {it.kernel_said()!r}") from None
        if status:
            raise Unreadable(f"mounted: status {status}, {said!r}, {it.kernel_said()!r}")
    found = {}
    for line in said.splitlines():
        kind, path, *runs = line.split(b" ")
        found[path] = None if kind == b"D" else b"".join(bytes([int(byte)]) * int(count) for byte, count in (it.split(b"x") for it in runs))
    return found


def rows_of(content):
    """Bytes in words: each row of one byte, and how often it stands there."""
    return " ".join(f"{row[1].decode('latin-1')}{len(row[0])}" for row in re.finditer(rb"(.)\1*", content, flags=re.S))


def told(tree):
    """The files in words: of each its length and its bytes, and nothing of a folder."""
    return {path.decode(): None if content is None else [len(content), rows_of(content)] for path, content in tree.items()}


def spans(log):
    """Of each program its name, the entries at which its marks begin and at which all of it is written, and the number of marks up to the
    first of them."""
    marks = [(at, it.text.decode()) for at, it in enumerate(entries_of(log.read_bytes())) if it.flags & MARK]
    begun = [at for at, text in marks if text.endswith(":begin")]
    # (dm-log-writes logs a write with the flush after it; so the last ones stand before the mark after a sync)
    ends = [at for at, text in marks if text.endswith(":synced")]
    return [(dict(marks)[at].removesuffix(":begin"), at, end, sum(it <= at for it, _ in marks)) for at, end in zip(begun, ends)]


class Judge:
    """Judges the images of a kind. Each that was judged has a line in FOLDER/KIND.seen, so that a run may be gone on with."""

    def __init__(self, folder, kind, machine):
        self.folder, self.kind, self.machine, self.path = folder, kind, machine, folder / f"{kind}.seen"
        lines = [json.loads(it) for it in self.path.read_text().splitlines()] if self.path.exists() else []
        self.known = {(it["cut"], it["choice"]): it for it in lines}

    def judged(self, image, file, name, marks):
        """What is known of an image: its files, and which tables allow them."""
        key = image.cut, image.choice.decode()
        if key not in self.known:
            line = {"cut": image.cut, "choice": key[1], "name": name, "marks": marks, "fault": None, "files": None, "allowed": []}
            try:
                tree = files_by_debugfs(file, name) if KINDS[self.kind].by_e2fsck else files_by_mount(file, name, self.machine)
                line["files"] = told(tree)
                line["allowed"] = [it for it in TABLES if named_model.allows(*allowed_by(self.folder, name, it), marks, tree)]
            except Unreadable as fault:
                line["fault"] = str(fault)
            with open(self.path, "a") as out:
                out.write(json.dumps(line, sort_keys=True) + "\n")
            self.known[key] = line
            if KINDS[self.kind].table not in line["allowed"]:
                file.copy(self.folder / f"{self.kind}.cut{image.cut}.image{image.number}")
        return self.known[key]


def exported(log, base, sectors, first, last):
    """The images of the cuts from one to another, as `crashbpf export` has them."""
    program = os.environ.get("CRASHBPF", "crashbpf")
    options = ["--sectors", str(sectors), "--base", base, "--by", "write", "--bound", os.environ.get("BOUND", "1"), "--cuts", os.environ.get("CUTS", "all")]
    options += ["--from", str(first), "--to", str(last), *(["--large"] if sectors > 16384 else [])]
    total = int(re.search(r"(?m)^total (\d+)", wanted(run([program, "images", log, *options]), "crashbpf images"))[1])
    process = subprocess.Popen([program, "export", log, *options], stdout=subprocess.PIPE, bufsize=1 << 20)
    inputs(process.stdout)
    yield from images(process.stdout, sectors, total)
    if process.wait():
        sys.exit(f"crashbpf export ended with {process.returncode}")


def compared(folder, kind, log, base, programs, machine):
    """Judges the images of programs in a guest. Prints a row for each, and returns their numbers."""
    it, judge = KINDS[kind], Judge(folder, kind, machine)
    places = [place for place in spans(log) if place[0] in programs]
    if not places:
        return []
    lines = {name: [] for name, *_ in places}
    verdicts = {}
    with tempfile.TemporaryDirectory(dir=folder) as room:
        file = ImageFile(os.path.join(room, "image"), it.sectors, base, False)
        for image in exported(log, base, it.sectors, places[0][1] + 1, places[-1][2]):
            if image.same is None:
                file.patch(image.records)
            for name, first, last, before in places:
                if first < image.cut <= last:
                    if image.same is None:
                        # (after the last mark comes what the program leaves, until all of it is written)
                        verdicts[image.number] = judge.judged(image, file, name, min(image.marks - before, EVERY[name].count("mark ")))
                    lines[name].append(verdicts.get(image.same if image.same is not None else image.number))
    return [numbers_of(folder, it.table, name, [line for line in found if line]) for name, found in lines.items()]


def numbers_of(folder, table, name, lines):
    """The row of a program: images, how many aren't allowed, states, how many of these each table allows, and all that the kind's
    allows."""
    states = {json.dumps([it["marks"], it["files"]], sort_keys=True): it["allowed"] for it in lines if it["fault"] is None}
    failing = sum(table not in it["allowed"] for it in lines)
    return name, [len(lines), failing, len(states), *(sum(it in found for found in states.values()) for it in TABLES), 0 if name in UNCOUNTED else states_of(folder, name, table)]


def put_row(kind, name, numbers):
    print(f"| {kind} | {name} | {' | '.join(map(str, numbers))} |", flush=True)


def compared_all(folder, kernel, kind, programs):
    """Judges the images of programs on a kind of file system. Returns how many weren't allowed."""
    begun, it = time.time(), KINDS[kind]
    log, base = recorded(folder, kernel, kind)
    machine = folder / f"machine.{kind}"
    if not it.by_e2fsck:
        script = folder / f"{kind}.check"
        script.write_text(CHECK % it.mount)
        environment = {**ENVIRONMENT, "MODULES": it.modules, "COMMANDS": "names", "PATH": f"{folder}:{ENVIRONMENT['PATH']}"}
        # (one that a run left when it was ended)
        run([TOP / "examples/mounted/mounted", "stop", machine])
        wanted(run([TOP / "examples/mounted/mounted", "start", kernel, str(it.sectors), machine, script], env=environment), "mounted")
    try:
        rows = compared(folder, kind, log, base, programs, Machine(machine / "0"))
    finally:
        if not it.by_e2fsck:
            run([TOP / "examples/mounted/mounted", "stop", machine])
    for name, numbers in rows:
        put_row(kind, name, numbers)
    sums = [sum(column) for column in zip(*(numbers for _, numbers in rows))] or [0, 0]
    put_row(kind, f"all, {it.table}, {time.time() - begun:.0f} s", sums)
    return sums[1]


def refused_where_missing(kernel, kinds):
    """Ends with a line where something is missing."""
    commands = ["qemu-system-x86_64", "busybox", "cpio", "dmsetup", "strace", "cc", os.environ.get("CRASHBPF", "crashbpf")]
    commands += [KINDS[it].make.split()[0] for it in kinds] + ["e2fsck", "debugfs"]
    missing = [it for it in dict.fromkeys(commands) if not shutil.which(it, path=ENVIRONMENT["PATH"])]
    if missing:
        sys.exit(f"names_in_guest: there is no command {', '.join(missing)}")
    if not list(kernel.glob("boot/vmlinuz-*")) or not (kernel / "lib/modules").is_dir():
        sys.exit(f"names_in_guest: {kernel} has no boot/vmlinuz-* or no lib/modules")


def main(words):
    if len(words) < 2 or not all(it in KINDS or it in EVERY for it in words[2:]):
        sys.exit(f"usage: names_in_guest.py FOLDER KERNEL [KIND..] [PROGRAM..]; KIND is {', '.join(KINDS)}; PROGRAM is {', '.join(EVERY)}")
    folder, kernel = Path(words[0]).resolve(), Path(words[1]).resolve()
    kinds = [it for it in words[2:] if it in KINDS] or list(KINDS)
    programs = [it for it in words[2:] if it in EVERY] or list(dict.fromkeys(name for it in kinds for name in programs_of(it)))
    refused_where_missing(kernel, kinds)
    folder.mkdir(exist_ok=True)
    wanted(run(["cc", "-O1", "-static", "-o", folder / "names", TOP / "tests/programs/names.c"]), "cc")
    for name in programs:
        traced(folder, name)
    put_row("kind", "program", ["images", "not allowed", "states", *TABLES, "allowed in all"])
    return 1 if sum(compared_all(folder, kernel, it, programs) for it in kinds) else 0


if __name__ == "__main__":
    sys.exit(main(sys.argv[1:]))
