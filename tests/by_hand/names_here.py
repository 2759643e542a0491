#!/usr/bin/env python3
"""Compares the tables of docs/RECORDING.md with the file systems of this machine's own kernel, for any program.

    python3 tests/by_hand/names_here.py [--runs N] FOLDER PROGRAM [KIND..]

PROGRAM is a script for sh, which keeps its files in $FILES and calls `mark`. Beside PROGRAM a folder PROGRAM.base may have what
$FILES has at first. It is run under strace, as `crashbpf-record --files` does, and $FILES lies on a file system of this kernel. That
stands on a loop device over a file that qemu-storage-daemon offers and logs. So one run says both: what the tables allow, and what
the file system wrote, in which order and with which flushes. Each crash image of that log which lacks at most one write is mounted.
The files that are there then have to be those of an image of the recording, after as many marks.

Meanwhile a thread writes parts of files back, and has the file system commit, as it may do at any time. Calls that change something
are delayed, so that this comes between them; with QUIET=1 nothing of that is done. The images of an ext4 are recovered by e2fsck.

A row for each kind of file system has the images, the states of the files that differ, and how many of these its table allows; with
TABLES=all each table. A state that the kind's table doesn't allow is printed. The status is 1 where there is one.

As root, by hand: it mounts. It wants loop devices, FUSE, strace, qemu-storage-daemon, crashbpf on the path or as $CRASHBPF, and
mkfs.ext4, mkfs.xfs, mkfs.btrfs. What it made is unmounted at its end. BOUND=2 takes the images that lack two writes, too.
"""
import concurrent.futures
import ctypes
import errno
import fcntl
import json
import os
import random
import re
import shutil
import struct
import subprocess
import sys
import tempfile
import threading
import time
from contextlib import contextmanager, suppress
from dataclasses import dataclass
from pathlib import Path

sys.dont_write_bytecode = True

import rooms

rooms.enter()

import named_model
from notation import FLUSH, FUA, MARK
from rows.recording import entries_of

from commands.each.image_file import ImageFile
from commands.each.stream import images, inputs
from commands.record import device, named_layout, traced
from commands.record.calls import Refused
from commands.record.layout import trace_log
from commands.record.orders import OTHER, TABLES


@dataclass(frozen=True)
class Kind:
    """A kind of file system: its table, its sectors, how it is made and mounted."""

    table: str
    sectors: int
    make: str
    mount: str

    @property
    def system(self):
        """What mount calls it."""
        return self.make.split()[0].removeprefix("mkfs.")


KINDS = {
    "ext4": Kind("ext4", 32768, "mkfs.ext4 -q -F -b 4096 -E nodiscard", "nodiscard,commit=300"),
    "ext4-lock": Kind("ordered", 32768, "mkfs.ext4 -q -F -b 4096 -E nodiscard", "nodiscard,commit=300,dioread_lock,nodelalloc"),
    "ext4-writeback": Kind("writeback", 32768, "mkfs.ext4 -q -F -b 4096 -E nodiscard", "nodiscard,commit=300,data=writeback,dioread_lock"),
    "ext4-journal": Kind("ordered", 32768, "mkfs.ext4 -q -F -b 4096 -E nodiscard", "nodiscard,commit=300,data=journal"),
    "ext4-fast": Kind("strict", 32768, "mkfs.ext4 -q -F -b 4096 -O fast_commit -E nodiscard", "nodiscard,commit=300"),
    "xfs": Kind("xfs", 614400, "mkfs.xfs -q -f -K", "nodiscard"),
    "btrfs": Kind("btrfs", 233472, "mkfs.btrfs -q -K", "nodiscard,commit=300"),
}
DELAYED = "write,pwrite64,writev,pwritev,pwritev2,rename,renameat,renameat2,unlink,unlinkat,ftruncate,truncate,fallocate,fsync,fdatasync,link,linkat,mkdir,mkdirat,openat,symlink,symlinkat"
# BTRFS_IOC_START_SYNC and BTRFS_IOC_WAIT_SYNC: a commit that doesn't write bytes back.
START_SYNC, WAIT_SYNC = 0x80089418, 0x40089416
LOOP_CTL_GET_FREE, LOOP_CONFIGURE, LO_FLAGS_AUTOCLEAR, MS_NOATIME = 0x4C82, 0x4C0A, 4, 1024
LIBRARY = ctypes.CDLL(None, use_errno=True)
PROGRAM = os.environ.get("CRASHBPF", "crashbpf")


class Files(named_model.Reader):
    """The images of a cut with files and folders alone: what else there is has no content."""

    def states(self):
        for held in super().states():
            yield {slot: it for slot, it in held.items() if it[0] != OTHER}


class Allowed:
    """What a table allows: the images of each cut of its log."""

    def __init__(self, entries, base, names):
        self.entries, self.base, self.names, self.cuts = entries, base, names, {}

    def of(self, marks):
        """The readers of the cuts after as many marks, each with the names that it may have."""
        if marks not in self.cuts:
            passed, self.cuts[marks] = 0, []
            for cut in range(len(self.entries) + 1):
                passed += cut > 0 and self.entries[cut - 1][0] == "mark"
                if passed == marks:
                    reader = Files(self.base, named_model.kept_at(self.entries, self.base, cut), self.names)
                    self.cuts[marks].append((reader, [reader.paths(held) for held in reader.states()]))
        return self.cuts[marks]

    def allows(self, marks, tree):
        """Whether an image has these files, after as many marks."""
        folders = {path for path, it in tree.items() if it is None}
        for reader, each in self.of(marks):
            for paths in each:
                if paths.keys() == tree.keys() and folders == {path for path, it in paths.items() if it is None}:
                    if all(it is None or reader.may_hold(it, tree[path]) for path, it in paths.items()):
                        return True
        return False


def wanted(words, **options):
    """Runs a command that has to end well. Returns what it said."""
    done = subprocess.run(words, capture_output=True, text=True, errors="replace", **options)
    if done.returncode:
        raise SystemExit(f"{words}: status {done.returncode}, {done.stdout}{done.stderr}")
    return done.stdout


@contextmanager
def mounted(path, point, kind, options):
    """A file system in a file or on a device is mounted at a folder."""
    with attached(path) as loop:
        failed(LIBRARY.mount(loop.encode(), point.encode(), kind.encode(), MS_NOATIME, options.encode()), f"mount of {path}")
    try:
        yield
    finally:
        for _ in range(100):
            if not LIBRARY.umount2(point.encode(), 0):
                break
            time.sleep(0.05)


@contextmanager
def attached(path):
    """A loop device of a file, which goes when nobody uses it any more."""
    file = os.open(path, os.O_RDWR | os.O_CLOEXEC)
    try:
        with open("/dev/loop-control", "rb") as control:
            while True:
                number = fcntl.ioctl(control, LOOP_CTL_GET_FREE)
                loop = os.open(f"/dev/loop{number}", os.O_RDWR | os.O_CLOEXEC)
                # (of struct loop_config the descriptor, and in its struct loop_info64 the flags)
                config = struct.pack("<II", file, 0) + struct.pack("<52xI", LO_FLAGS_AUTOCLEAR).ljust(232, b"\0") + bytes(64)
                try:
                    fcntl.ioctl(loop, LOOP_CONFIGURE, config)
                    break
                except OSError as fault:
                    os.close(loop)
                    if fault.errno != errno.EBUSY:
                        raise
        try:
            yield f"/dev/loop{number}"
        finally:
            os.close(loop)
    finally:
        os.close(file)


def failed(answer, what):
    if answer:
        raise SystemExit(f"{what}: {os.strerror(ctypes.get_errno())}")


class Disturber(threading.Thread):
    """Writes parts of files back, and has the file system commit, at times by chance."""

    def __init__(self, point, kind, seed):
        super().__init__(daemon=True)
        self.point, self.kind, self.chance, self.over = point, kind, random.Random(seed), threading.Event()
        self.range = LIBRARY.sync_file_range
        self.range.argtypes = [ctypes.c_int, ctypes.c_int64, ctypes.c_int64, ctypes.c_uint]

    def run(self):
        while not self.over.wait(self.chance.uniform(0, 0.02)):
            with suppress(OSError):
                self.chance.choice([self.write_part, self.write_part, self.commit])()

    def write_part(self):
        """Writes one page of a file back, or some."""
        found = [os.path.join(here, it) for here, _, names in os.walk(f"{self.point}/files") for it in names]
        found = [it for it in found if os.path.isfile(it) and not os.path.islink(it)]
        if not found:
            return
        file = os.open(self.chance.choice(found), os.O_RDONLY | os.O_NOATIME)
        try:
            pages = max(1, -(-os.fstat(file).st_size // 4096))
            self.range(file, 4096 * self.chance.randrange(pages), 4096 * self.chance.choice([1, 1, 2, 16]), 7)
        finally:
            os.close(file)

    def commit(self):
        """Has the file system commit what it has of names."""
        if self.kind == "btrfs":
            folder = os.open(self.point, os.O_RDONLY)
            try:
                number = bytearray(8)
                fcntl.ioctl(folder, START_SYNC, number)
                fcntl.ioctl(folder, WAIT_SYNC, bytes(number))
            finally:
                os.close(folder)
            return
        file = os.open(f"{self.point}/noise", os.O_WRONLY | os.O_CREAT, 0o644)
        try:
            os.fchmod(file, self.chance.choice([0o600, 0o640, 0o644]))
            os.fsync(file)
        finally:
            os.close(file)


def contents(top):
    """The files below a folder, by their paths; of a folder nothing. Other things are left out."""
    found, top = {}, os.fsencode(top)
    for here, folders, names in os.walk(top):
        for it in folders + names:
            path = os.path.join(here, it)
            if os.path.islink(path) or not (os.path.isdir(path) or os.path.isfile(path)):
                continue
            found[os.path.relpath(path, top)] = None if os.path.isdir(path) else Path(os.fsdecode(path)).read_bytes()
    return found


class Run:
    """A run of a program on a file system of a kind, in a folder of its own."""

    def __init__(self, folder, program, kind, seed):
        self.folder, self.program, self.name, self.kind, self.seed = Path(folder), Path(program), kind, KINDS[kind], seed
        self.point = self.folder / "mnt"
        self.base = self.folder / "disk.base"

    def make(self):
        """Makes the file system with what $FILES has at first."""
        self.point.mkdir(parents=True)
        with open(self.base, "xb") as file:
            file.truncate(512 * self.kind.sectors)
        wanted([*self.kind.make.split(), str(self.base)])
        with mounted(str(self.base), str(self.point), self.kind.system, ""):
            start = Path(f"{self.program}.base")
            if start.is_dir():
                shutil.copytree(start, self.point / "files", symlinks=True)
            else:
                (self.point / "files").mkdir()
            (self.point / "noise").touch()
        # (zeros needn't be copied for each image)
        wanted(["fallocate", "--dig-holes", str(self.base)])

    def record(self):
        """Runs the program, and makes the log of the disk. Returns its status."""
        room = str(self.folder)
        device.lay_disk(room, str(self.base), None)
        subprocess.run(device.daemon_command(room), check=True, stdin=subprocess.DEVNULL)
        try:
            with mounted(f"{room}/{device.DEVICE}", str(self.point), self.kind.system, self.kind.mount):
                status = self.run_program()
        finally:
            device.stop(room)
        logged = Path(room, device.QEMU).read_bytes()
        text = device.trace_of(Path(room, device.MARKS).read_text(), int.from_bytes(logged[16:24], "little"))
        Path(room, "trace").write_text(text)
        log = trace_log.made(text, Path(room), self.kind.sectors, trace_log.LARGE, 0)
        trace_log.write_log(f"{room}/disk.log", [log])
        return status

    def run_program(self):
        """Runs the program under strace, with calls that are delayed, beside what disturbs it. Returns its status."""
        files, room = str(self.point / "files"), str(self.folder)
        self.files, self.at = files, os.path.realpath(".")
        subprocess.run(["sync", "-f", files], check=True)
        self.before = traced.contents_of(files) | traced.others_of(files, [], traced.skips_below)
        self.folders = traced.folders_in(files)
        self.first = int.from_bytes(Path(room, device.QEMU).read_bytes()[16:24], "little")
        self.begun = os.stat(f"{room}/{device.MARKS}").st_ctime_ns
        disturber = Disturber(str(self.point), self.name, self.seed)
        usual = traced.OPTIONS
        if os.environ.get("QUIET") is None:
            delay = random.Random(self.seed).choice([1000, 4000, 10000])
            traced.OPTIONS = [*usual, "-e", f"inject={DELAYED}:delay_exit={delay}"]
            disturber.start()
        try:
            status = traced.run(room, ["sh", "-c", self.program.read_text()], {**traced.surroundings(room), "FILES": files, "HOME": room, "PROG": str(self.program.parent)})
        finally:
            traced.OPTIONS = usual
            disturber.over.set()
            if disturber.ident:
                disturber.join()
        calls = Path(room, traced.CALLS)
        calls.write_bytes(calls.read_bytes().replace(b" (DELAYED)\n", b"\n"))
        self.after = traced.contents_of(files)
        subprocess.run(["sync", "-f", files], check=True)
        return status

    def follow(self, table):
        """What a table makes of the calls, as the model reads it."""
        room = str(self.folder)
        tracing = traced.follow_names(f"{room}/{traced.CALLS}", self.files, self.before, self.folders, [], self.at, f"{room}/{device.MARKS}", table, self.begun)
        found = {name: self.after[it.name] if hasattr(it, "name") else it for name, it in self.after.items()}
        traced.compare(tracing, found)
        laid = named_layout.Laid(tracing.tree)
        parts, _ = named_layout.layout.log_of(list(laid.entries()), laid.firsts, laid.sectors)
        kinds = {MARK: "mark", FLUSH: "flush", FUA: "fua", 0: "write"}
        entries = [(kinds[it.flags], it.sector, it.data) for it in entries_of(b"".join(parts))]
        sets, *_ = named_layout.read_map(laid.map_text())
        return Allowed(entries, laid.image(), [(it.sector, it.slots) for it in sets])

    def states(self):
        """Yields the images that differ: each with its cut, its choice, the marks before it, and its files."""
        log = f"{self.folder}/disk.log"
        options = ["--sectors", str(self.kind.sectors), "--base", str(self.base), "--by", "write", "--bound", os.environ.get("BOUND", "1"), "--large", "--from", str(self.first + 1)]
        total = int(re.search(r"(?m)^total (\d+)", wanted([PROGRAM, "images", log, *options]))[1])
        process = subprocess.Popen([PROGRAM, "export", log, *options], stdout=subprocess.PIPE, bufsize=1 << 20)
        inputs(process.stdout)
        image_path = f"{self.folder}/image"
        with suppress(FileNotFoundError):
            os.unlink(image_path)
        file = ImageFile(image_path, self.kind.sectors, str(self.base), False)
        with concurrent.futures.ThreadPoolExecutor(8) as pool:
            waiting = []
            for image in images(process.stdout, self.kind.sectors, total):
                if image.same is not None:
                    continue
                file.patch(image.records)
                copy = f"/dev/shm/names_here.{os.getpid()}.{image.number}"
                file.copy(copy)
                waiting.append((image, pool.submit(self.mounted_files, copy)))
                while len(waiting) > 12:
                    yield self.waited(*waiting.pop(0))
            while waiting:
                yield self.waited(*waiting.pop(0))
        process.wait()

    @staticmethod
    def waited(image, future):
        """What is known of an image once its files have been read."""
        return image.cut, image.choice.decode(), image.marks, future.result()

    def mounted_files(self, copy):
        """The files of an image, by a mount; or what is said where it can't be mounted."""
        point = tempfile.mkdtemp(prefix="names_here.")
        if self.kind.system == "ext4" and "fast_commit" not in self.kind.make:
            return self.checked_files(copy, point)
        try:
            with mounted(copy, point, self.kind.system, "nouuid" if self.name == "xfs" else ""):
                return contents(f"{point}/files")
        except SystemExit as fault:
            return str(fault)
        finally:
            os.rmdir(point)
            os.unlink(copy)


    @staticmethod
    def checked_files(copy, room):
        """The files of an ext4, once e2fsck has replayed its journal."""
        try:
            done = subprocess.run(["e2fsck", "-fy", copy], capture_output=True, text=True)
            if done.returncode & ~1:
                return f"e2fsck: {done.stdout}"
            subprocess.run(["debugfs", "-R", f"rdump /files {room}", copy], capture_output=True)
            return contents(f"{room}/files")
        finally:
            shutil.rmtree(room)
            os.unlink(copy)


def told(tree):
    """The files in words: of each its length and its bytes, and nothing of a folder."""
    return {os.fsdecode(path): None if content is None else [len(content), re.sub(rb"(.)\1{3,}", lambda it: b"<%s*%d>" % (it[1], len(it[0])), content, flags=re.S)[:200].decode("latin-1")] for path, content in tree.items()}


def compared(folder, program, kind, seed):
    """Runs and compares. Returns the row: images, states, and how many each table allows; and those that the kind's table doesn't."""
    it = Run(folder, program, kind, seed)
    it.make()
    status = it.record()
    logs, refused = {}, {}
    own = (it.kind.table,)
    for table in TABLES if os.environ.get("TABLES") == "all" else own:
        try:
            logs[table] = it.follow(table)
        except Refused as why:
            refused[table] = str(why)
    found, count, faults = {}, 0, []
    for cut, choice, marks, tree in it.states():
        count += 1
        if isinstance(tree, str):
            faults.append((cut, choice, tree))
            continue
        found.setdefault((marks, frozenset(tree.items())), (cut, choice))
    allowed, bad = dict.fromkeys(logs, 0), []
    for (marks, tree), (cut, choice) in sorted(found.items(), key=lambda it: it[1]):
        which = [table for table, log in logs.items() if log.allows(marks, dict(tree))]
        for table in which:
            allowed[table] += 1
        if it.kind.table in logs and it.kind.table not in which:
            bad.append({"cut": cut, "choice": choice, "marks": marks, "files": told(dict(tree)), "allowed": which})
    return status, count, len(found), allowed, bad, faults, refused


def main(words):
    runs = 1
    if words[:1] == ["--runs"]:
        runs, words = int(words[1]), words[2:]
    if len(words) < 2 or not all(it in KINDS for it in words[2:]):
        sys.exit(f"usage: names_here.py [--runs N] FOLDER PROGRAM [KIND..]; KIND is {', '.join(KINDS)}")
    worst = 0
    for kind in words[2:] or KINDS:
        for run in range(runs):
            folder = Path(words[0]).resolve() / f"{Path(words[1]).name}.{kind}.{run}"
            shutil.rmtree(folder, ignore_errors=True)
            begun = time.time()
            status, count, states, allowed, bad, faults, refused = compared(folder, words[1], kind, run)
            print(f"| {Path(words[1]).name} | {kind} | status {status} | {count} | {states} | {' | '.join(f'{table} {allowed[table]}' for table in allowed)} | {time.time() - begun:.0f} s |", flush=True)
            for why in dict.fromkeys(refused.values()):
                print(f"    refused by {', '.join(table for table, it in refused.items() if it == why)}: {why}")
            for it in bad[:6]:
                print(f"    NOT ALLOWED {json.dumps(it)}")
            for it in faults[:3]:
                print(f"    not mounted: {it}")
            worst = max(worst, bool(bad))
            if not bad:
                shutil.rmtree(folder, ignore_errors=True)
    return worst


if __name__ == "__main__":
    sys.exit(main(sys.argv[1:]))
