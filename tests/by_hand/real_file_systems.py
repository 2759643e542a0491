#!/usr/bin/env python3
"""Compares the checkers of file systems in examples/checkers with e2fsck and fsck.vfat. The gate doesn't run it: it needs root for
device nodes, and Debian's packages e2fsprogs, dosfstools and mtools.

    python3 tests/by_hand/real_file_systems.py ext4|fat [--images N] [--seed N] [--program PROGRAM]
    python3 tests/by_hand/real_file_systems.py ext4|fat LOG SECTORS [--run "OPTION .."] [--base FILE] [--images N] [--seed N] [--program PROGRAM]

The first makes file systems of many kinds, and N images (300) in each of which one field of one of them is another. The second takes
N images of a log, of the run that OPTION .. ask for. Each image is judged by the checker's native build (include/native/checker.h), by its stored
bytes with `crashbpf check`, which has to answer the same, and by the tool. PROGRAM is as in run.py.

e2fsck replays the journal of a copy (-y -E journal_only) and then looks (-fn). It has found a fault where either status isn't 0, or
where it says that it mended something. fsck.vfat looks (-n), at an image without the mark of a mount that didn't end; the checker
is compiled with AS_FSCK, and its stored bytes aren't tried. Where it has found a fault its status is 1, or it says that it won't
mend one by itself.

Prints how many images both pass, both fail, and one of the two alone fails, with a line for each of these.
"""
import argparse
import os
import random
import re
import shutil
import struct
import subprocess
import sys
import tempfile
from collections import Counter
from concurrent.futures import ThreadPoolExecutor
from itertools import islice
from pathlib import Path

sys.dont_write_bytecode = True

import rooms

rooms.enter()
from notation import TOP

CHECKERS = TOP / "examples/checkers"
WORKERS = 3
SAID_OF_EXT4 = ("hecksum error", "flag is clear", "FIXED", "Fix? yes", "Clear? yes", "Clearing fields", "trying backup", "Illegal")


def run(*words):
    """Runs a program; what it printed, and its status."""
    environment = {**os.environ, "MTOOLS_SKIP_CHECK": "1"}
    done = subprocess.run([str(it) for it in words], capture_output=True, env=environment)
    return done.returncode, done.stdout, (done.stdout + done.stderr).decode(errors="replace")


def number(content, form, at):
    return struct.unpack_from("<" + form, content, at)[0]


def changed(rng, content, at, size, order="little"):
    """The content with another number of that size there, and what it was and is."""
    old, end = int.from_bytes(content[at : at + size], order), 1 << 8 * size
    bit = 1 << rng.randrange(8 * size)
    new = rng.choice([old + 1, old - 1, old ^ bit, old ^ bit, 0, rng.randrange(end), rng.randrange(256)]) % end
    if new == old:
        new = old ^ bit
    return content[:at] + new.to_bytes(size, order) + content[at + size :], f"{at:x}.{size} {old:x} {new:x}"


class Ext4:
    """How ext4.c is compared."""

    words = []
    is_stored = True
    # How each file system is made, and the number of its blocks.
    kinds = [
        ("-b 1024", 2048), ("-b 1024", 8192), ("-b 4096", 2048), ("-b 2048", 4096),
        ("-b 1024 -O ^metadata_csum", 4096), ("-b 1024 -O ^metadata_csum,uninit_bg", 4096), ("-b 1024 -O ^metadata_csum,^64bit", 8192),
        ("-b 4096 -O ^metadata_csum", 2048), ("-b 1024 -O ^metadata_csum,^resize_inode", 4096),
        ("-b 1024 -g 1024", 8192), ("-b 1024 -g 1024 -O ^metadata_csum", 8192), ("-b 1024 -g 1024 -O ^metadata_csum,uninit_bg", 8192),
        ("-b 1024 -g 2048 -O ^flex_bg", 8192), ("-b 1024 -g 1024 -O ^metadata_csum,^sparse_super,^resize_inode", 8192),
        ("-b 1024 -I 128 -O ^metadata_csum,^extra_isize", 4096), ("-b 1024 -O metadata_csum_seed", 4096),
        ("-b 1024 -O ^has_journal", 2048), ("-b 1024 -I 128", 4096), ("-b 1024 -O ^metadata_csum,^has_journal", 1024),
    ]  # fmt: skip
    # Places and sizes of fields: of the super block, a descriptor, an inode, the journal's super block, a node of extents, an entry.
    super = [(it, 4) for it in (*range(0, 0x34, 4), 0x4C, 0x54, 0x5C, 0x60, 0x64, 0x68, *range(0xE0, 0xF0, 4), 0x100, 0x104, 0x10C, 0x150, 0x154, 0x160, 0x270, 0x3FC)]
    super += [(it, 2) for it in (0x34, 0x36, 0x38, 0x3A, 0x3C, 0x50, 0x58, 0x5A, 0xCE, 0xFE, 0x15C, 0x15E)] + [(0xFC, 1), (0x174, 1), (0x175, 1)]
    descriptor = [(it, 4) for it in (0, 4, 8, 0x20, 0x24, 0x28)]
    descriptor += [(it, 2) for it in (0xC, 0xE, 0x10, 0x12, 0x18, 0x1A, 0x1C, 0x1E, 0x2C, 0x2E, 0x30, 0x32, 0x38, 0x3A)]
    inode = [(it, 4) for it in (4, 4, 0x10, 0x14, 0x1C, 0x1C, 0x20, 0x20, 0x34, 0x3C, 0x3C, 0x40, 0x48, 0x64, 0x68, 0x6C, 0x70)]
    inode += [(it, 2) for it in (0, 0, 2, 0x18, 0x1A, 0x1A, 0x28, 0x2A, 0x2C, 0x2E, 0x38, 0x3A, 0x44, 0x74, 0x76, 0x7C, 0x80, 0x82)]
    journal = [(it, 4) for it in (*range(0, 0x34, 4), 0x40, 0xFC)] + [(0x50, 1)]
    node = [(0, 2), (2, 2), (4, 2), (6, 2), (12, 4), (16, 2), (18, 2), (20, 4), (24, 4), (28, 2), (32, 4)]
    entry = [(0, 4), (0, 4), (4, 2), (6, 1), (7, 1), (8, 1), (9, 1)]

    def tool(self, path):
        """Returns whether e2fsck finds something wrong, after the journal, and what it says."""
        copy = f"{path}.copy"
        shutil.copy(path, copy)
        replayed, looked = run("e2fsck", "-y", "-E", "journal_only", copy), run("e2fsck", "-fn", copy)
        os.unlink(copy)
        said = replayed[2] + looked[2]
        return bool(replayed[0] or looked[0] or any(it in said for it in SAID_OF_EXT4)), said

    def made(self, folder):
        """File systems of all kinds."""
        for at, (options, blocks) in enumerate(self.kinds):
            path = folder / "made"
            path.unlink(missing_ok=True)
            files = self.files(folder / f"files{at}", random.Random(at), 4 if blocks * int(options.split()[1]) < 3 << 20 else 7)
            status, _, said = run("mke2fs", "-q", "-t", "ext4", "-E", "root_owner=0:0,lazy_itable_init=0", *options.split(), "-d", files, path, blocks)
            if status:
                raise SystemExit(said)
            if at % 2:
                run("debugfs", "-w", "-R", "punch /sparse 3 5", path)
            if at % 3 == 0:
                run("e2fsck", "-fyD", path)
            yield path.read_bytes()

    def files(self, top, rng, folders):
        """Files and folders of all kinds."""
        for number_ in range(folders):
            (top / f"dir{number_}/sub/deeper").mkdir(parents=True)
            for other in range(rng.choice([2, 5, 40 if folders > 4 else 5])):
                (top / f"dir{number_}/file_with_a_longer_name_{other:04}").write_bytes(rng.randbytes(rng.choice([0, 1, 100, 1024, 3000, 9000])))
        (top / "short").symlink_to("dir0")
        (top / "long").symlink_to("x" * 200)
        os.mkfifo(top / "fifo")
        os.mknod(top / "character", 0o20644, os.makedev(1, 3))
        os.mknod(top / "block", 0o60644, os.makedev(7, 0))
        os.link(top / "dir0/file_with_a_longer_name_0000", top / "hard")
        with open(top / "sparse", "wb") as file:
            for at in range(8):
                file.seek(at * 20000)
                file.write(b"x" * 1500)
        return top

    def damaged(self, content, rng):
        """Returns an image with one field or bit changed, and which."""
        it = Ext4Image(content)
        kind = rng.choice(["super", "group", "inode", "inode", "inode", "blocks", "inodes", "entry", "entry", "entry", "node", "journal"])
        if kind in ("blocks", "inodes"):
            group = rng.randrange(it.groups)
            at = number(content, "I", it.descriptor(group) + 4 * (kind == "inodes")) * it.block
            bit = rng.randrange(it.per_group if kind == "blocks" else it.inodes_per_group)
            byte = content[at + bit // 8] ^ 1 << bit % 8
            return content[: at + bit // 8] + bytes([byte]) + content[at + bit // 8 + 1 :], f"{kind} {group} {bit}"
        places = {"super": [1024], "group": [it.descriptor(rng.randrange(it.groups))]}
        fields, order = {"super": self.super, "group": self.descriptor, "inode": self.inode, "entry": self.entry, "node": self.node, "journal": self.journal}[kind], "little"
        if kind == "group":
            fields = [field for field in fields if field[0] < it.descriptor_size]
        elif kind == "inode":
            fields = [field for field in fields if sum(field) <= it.inode_size]
            places[kind] = [it.inode(n) for n in it.used()]
        elif kind == "entry":
            extents = it.extents(rng.choice([n for n in it.used() if number(content, "H", it.inode(n)) >> 12 == 4]))[0]
            places[kind] = [at for extent in extents for at in it.entries(extent)]
        elif kind == "node":
            places[kind] = [at for n in it.used() for at in it.extents(n)[1]]
        elif kind == "journal":
            places[kind], order = [first for first, _ in it.extents(8)[0][:1]], "big"
        if not places[kind]:
            return self.damaged(content, rng)
        at, size = rng.choice(fields)
        image, said = changed(rng, content, rng.choice(places[kind]) + at, size, order)
        return image, f"{kind}+{at:x} {said}"


class Ext4Image:
    """Where things stand in an ext4."""

    def __init__(self, content):
        self.content, at = content, 1024
        self.block, self.first = 1024 << number(content, "I", at + 0x18), number(content, "I", at + 0x14)
        self.per_group, self.inodes_per_group = number(content, "I", at + 0x20), number(content, "I", at + 0x28)
        self.inodes, self.inode_size = number(content, "I", at), number(content, "H", at + 0x58)
        self.descriptor_size = number(content, "H", at + 0xFE) if number(content, "I", at + 0x60) & 0x80 else 32
        self.groups = -(-(number(content, "I", at + 4) - self.first) // self.per_group)

    def descriptor(self, group):
        return (self.first + 1) * self.block + group * self.descriptor_size

    def inode(self, n):
        table = number(self.content, "I", self.descriptor((n - 1) // self.inodes_per_group) + 8)
        return table * self.block + (n - 1) % self.inodes_per_group * self.inode_size

    def used(self):
        return [n for n in range(1, self.inodes + 1) if number(self.content, "H", self.inode(n) + 0x1A)]

    def extents(self, n):
        """The first and the last byte of each extent of an inode, and the places of the nodes below it."""
        found, nodes, left = [], [], [self.inode(n) + 0x28]
        if not number(self.content, "I", self.inode(n) + 0x20) & 0x80000:
            return found, nodes
        while left:
            at = left.pop()
            for entry in range(at + 12, at + 12 + 12 * number(self.content, "H", at + 2), 12):
                if number(self.content, "H", at + 6):
                    nodes.append(number(self.content, "I", entry + 4) * self.block)
                    left.append(nodes[-1])
                else:
                    first = number(self.content, "I", entry + 8) * self.block
                    found.append((first, first + number(self.content, "H", entry + 4) * self.block))
        return found, nodes

    def entries(self, extent):
        """Yields the places of the entries in a stretch of a directory."""
        at, end = extent
        while at < end and number(self.content, "H", at + 4) >= 8:
            yield at
            at += number(self.content, "H", at + 4)


class Fat:
    """How fat.c is compared."""

    words = ["-DAS_FSCK"]
    is_stored = False
    kinds = [(1440, "-F 12"), (4096, "-F 16 -s 1"), (8192, "-F 16 -s 2"), (8192, "-F 12 -S 1024 -s 4"), (8192, "-F 16 -s 1 -f 1 -r 64"), (36864, "-F 32 -s 1")]
    boot = [(it, 2) for it in (11, 14, 17, 19, 22, 24, 26, 40, 42, 48, 50, 510)] + [(it, 4) for it in (28, 32, 36, 39, 44)] + [(it, 1) for it in (13, 16, 21, 37, 38, 65)]
    entry = [(it, 1) for it in (0, 1, 8, 11, 12, 13)] + [(it, 2) for it in (14, 20, 22, 26, 26, 26)] + [(28, 4)] * 3
    info = [(it, 4) for it in (0, 484, 488, 492, 508)]

    def tool(self, path):
        status, _, said = run("fsck.vfat", "-n", path)
        return bool(status) or "Not auto-correcting" in said, said

    def without_mount(self, content):
        """The image without the mark of a mount that didn't end."""
        at = 0x41 if content[22:24] == b"\0\0" else 0x25
        return content[:at] + bytes([content[at] & 0xFE]) + content[at + 1 :]

    def made(self, folder):
        """Yields file systems of each kind, with files and folders."""
        path, file = folder / "made", folder / "file"
        for at, (size, options) in enumerate(self.kinds):
            rng = random.Random(at)
            path.unlink(missing_ok=True)
            status, _, said = run("mkfs.vfat", "-C", *options.split(), "-n", "LABEL", path, size)
            if status:
                raise SystemExit(said)
            for number_ in range(4):
                for name in ("", "/a long directory name"):
                    run("mmd", "-i", path, f"::dir{number_}{name}")
                names = [*(f"file number {it}.txt" for it in range(rng.choice([3, 6]))), "a long directory name/SHORT.BIN"]
                for name in names:
                    file.write_bytes(rng.randbytes(rng.choice([0, 1, 500, 2000, 9000])))
                    run("mcopy", "-i", path, file, f"::dir{number_}/{name}")
            run("mdel", "-i", path, "::dir1/file number 1.txt")
            file.write_bytes(rng.randbytes(12000))
            run("mcopy", "-i", path, file, "::dir1/more.dat")
            run("mdeltree", "-i", path, "::dir2")
            yield path.read_bytes()

    def damaged(self, content, rng):
        """Returns an image with one field changed, and which."""
        it = FatImage(content)
        kind = rng.choice(["boot", "table", "table", "table", "entry", "entry", "entry", *["info"] * (it.bits == 32)])
        if kind == "table":
            used = [n for n in range(2, min(it.end, 2000)) if it.next(n)]
            cluster, table = rng.choice([*[rng.choice(used)] * 4, rng.randrange(it.end)]), rng.choice([0, 0, 0, it.tables - 1])
            fields, place = [(0, 4 if it.bits == 32 else 2)], it.table + table * it.size + cluster * it.bits // 8
        else:
            fields = {"boot": self.boot, "entry": self.entry, "info": self.info}[kind]
            place = {"boot": lambda: 0, "entry": lambda: rng.choice(it.entries()), "info": lambda: number(content, "H", 48) * it.sector}[kind]()
        at, size = rng.choice(fields)
        image, said = changed(rng, content, place + at, size)
        return image, f"{kind}+{at:x} {said}"


class FatImage:
    """Where things stand in a FAT file system."""

    def __init__(self, content):
        self.content, self.sector, self.tables = content, number(content, "H", 11), content[16]
        self.cluster, self.table = self.sector * content[13], self.sector * number(content, "H", 14)
        is_32 = not number(content, "H", 22)
        self.size = self.sector * (number(content, "I", 36) if is_32 else number(content, "H", 22))
        self.root = self.table + self.tables * self.size
        self.data = self.root + 32 * number(content, "H", 17)
        clusters = ((number(content, "H", 19) or number(content, "I", 32)) * self.sector - self.data) // self.cluster
        self.end, self.bits = clusters + 2, 32 if is_32 else 12 if clusters < 4085 else 16

    def next(self, n):
        if self.bits == 12:
            return number(self.content, "H", self.table + n + n // 2) >> 4 * (n & 1) & 0xFFF
        return number(self.content, "H" if self.bits == 16 else "I", self.table + n * self.bits // 8) & 0xFFFFFFF

    def of_chain(self, n):
        while 2 <= n < self.end:
            yield from range(self.data + (n - 2) * self.cluster, self.data + (n - 1) * self.cluster, 32)
            n = self.next(n)

    def entries(self):
        """Returns the places of all directory entries."""
        found = []
        left = [self.of_chain(number(self.content, "I", 44)) if self.bits == 32 else range(self.root, self.data, 32)]
        while left:
            for at in left.pop():
                name, attributes = self.content[at], self.content[at + 11]
                if name in (0, 0xE5):
                    continue
                found.append(at)
                if attributes != 15 and attributes & 16 and name != 0x2E:
                    left.append(self.of_chain(number(self.content, "H", at + 26) | (number(self.content, "H", at + 20) << 16) * (self.bits == 32)))
        return found


def images_of(asked, program):
    """Images of a log, with what is said of each."""
    words = ["--sectors", asked.sectors, *(["--base", asked.base] if asked.base else []), *asked.options]
    total = int(re.search(r"total (\d+)", run(program, "images", asked.log, *words)[2])[1])
    for it in sorted(random.Random(asked.seed).sample(range(total), min(asked.images, total))):
        yield run(program, "image", asked.log, it, *words)[1], f"image {it} of {total}"


def made_images(kind, asked, folder):
    """File systems, and damaged ones, with what is said of each."""
    good, rng = list(kind.made(folder)), random.Random(asked.seed)
    yield from ((it, f"whole {at}") for at, it in enumerate(good))
    for _ in range(asked.images):
        at = rng.randrange(len(good))
        image, said = kind.damaged(good[at], rng)
        yield image, f"of {at}: {said}"


def batches(given, size):
    """What is given, so many at a time."""
    while some := list(islice(given, size)):
        yield some


def main():
    parser = argparse.ArgumentParser()
    parser.add_argument("kind", choices=["ext4", "fat"])
    parser.add_argument("log", nargs="?")
    parser.add_argument("sectors", nargs="?")
    parser.add_argument("--base")
    parser.add_argument("--images", type=int, default=300)
    parser.add_argument("--seed", type=int, default=1)
    parser.add_argument("--program", default=TOP / "crates/crashbpf/out/crashbpf", type=Path)
    parser.add_argument("--run", default="")
    asked = parser.parse_args()
    asked.options = asked.run.split()
    kind, program = {"ext4": Ext4, "fat": Fat}[asked.kind](), asked.program.resolve()
    with tempfile.TemporaryDirectory(dir="/dev/shm" if os.path.isdir("/dev/shm") else None) as name:
        folder = Path(name)
        source, native = CHECKERS / f"{asked.kind}.c", folder / "native"
        native_words = ["cc", "-O1", "-w", *kind.words, "-include", TOP / "include/native/checker.h", "-I", TOP / "include", source, "-o", native]
        if run(*native_words)[0]:
            raise SystemExit(run(*native_words)[2])

        def judged(numbered):
            at, (content, said) = numbered
            path = folder / f"image{at}"
            path.write_bytes(kind.without_mount(content) if asked.log and asked.kind == "fat" else content)
            answered, bpf = run(native, path)[1].decode().strip(), None
            if kind.is_stored:
                bpf = run(program, "check", source.with_suffix(".bpf"), path, "--guards")[1].decode().strip().split("\n")[-1]
            found = kind.tool(path)
            path.unlink()
            return said, answered, bpf, found

        table, other = Counter(), 0
        given = images_of(asked, program) if asked.log else made_images(kind, asked, folder)
        with ThreadPoolExecutor(WORKERS) as pool:
            # (a few at a time: all of them wouldn't fit into memory)
            results = (it for some in batches(enumerate(given), 4 * WORKERS) for it in pool.map(judged, some))
            for said, answered, bpf, (found, words) in results:
                fails = not answered.startswith("answer 0 ")
                table[fails, found] += 1
                if bpf is not None and bpf != answered:
                    other += 1
                    print(f"{said}: the program says {bpf}, and the native build {answered}")
                if fails != found:
                    told = " | ".join(it.strip() for it in words.split("\n") if it.strip() and not it.startswith(("Pass", "e2fsck 1", "fsck.fat")))
                    print(f"{said}: {answered}; {told[:200]}", flush=True)
    print(f"both pass {table[False, False]}, both fail {table[True, True]}, the checker alone {table[True, False]}, the tool alone {table[False, True]}")
    return 1 if other else 0


if __name__ == "__main__":
    sys.exit(main())
