#!/usr/bin/env python3
"""Tests what crashbpf-record makes of strace's text: the entries of the log, and what is refused.

    python3 tests/gate/traced.py [SEED COUNT]

It needs Python alone, neither strace nor the built program: the texts stand here, or are made of those by cutting them off and
changing bytes. The files of an image of ext4 are taken out where e2fsprogs are there; a line says where that isn't run. The rule for several files on one device is compared with a plain model of files (files_model.py) on COUNT
random runs, 3,000 where it isn't given; calls of several threads at once (crossed_calls.py) on a sixth of these. tests/by_hand/record.py records real programs, by hand.

Prints a line for each row that failed, and last `N passed, M failed`. It takes some five seconds.
"""
import os
import random
import re
import shutil
import subprocess
import sys
import tempfile
from pathlib import Path

sys.dont_write_bytecode = True

import rooms

rooms.enter()

import crossed_calls
import files_model
from notation import FUA, SECTOR, TOP, F, M, S, log
from strace_texts import FILES, HERE, MARKS, strace

RECORD = TOP / "commands/record"
from commands.record import disk
from commands.record import guest
from commands.record import known
from commands.record import layout
from commands.record import systems
from commands.record import traced
from commands.record.calls import Refused

A, B, C = (bytes([it]) * SECTOR for it in b"ABC")
KINDS = {disk.WRITE: "w", disk.FLUSH: "f", disk.FUA: "fua", disk.MARK: "m"}


def followed(text, before=None, skipped=(), begun=0):
    """What is followed of a text of strace. Raises Refused."""
    with tempfile.NamedTemporaryFile() as file:
        file.write(text)
        file.flush()
        return traced.follow(file.name, FILES, before or {}, skipped, HERE, MARKS, begun)


def entries_of(tracing):
    """The entries as tuples: a kind, the name of the file, the sector, the bytes."""
    rows = [(KINDS[it.kind], it.file.name.decode() if it.file else "", it.sector, bytes(it.data)) for it in tracing.disk.entries]
    return [(it[0],) if it[0] == "f" else (it[0], it[3].decode()) if it[0] == "m" else it for it in rows]


OPEN = "openat(AT_FDCWD</elsewhere>, 'x', O_RDWR|O_CREAT, 0644) = 3<db>\n"
WAL = "openat(AT_FDCWD</elsewhere>, 'x', O_RDWR|O_CREAT, 0644) = 4<wal>\n"
PIPE = "pipe2([5<pipe:[1]>, 6<pipe:[1]>], O_CLOEXEC) = 0\n"
TAKEN = "splice(5<pipe:[1]>, NULL, 3<db>, NULL, 512, 0) = 512\n"
THREAD = "clone(child_stack=0x7f, flags=CLONE_VM|CLONE_FILES|CLONE_THREAD) = 101\n"
GONE = "101 +++ exited with 0 +++\n"
HALF = b"A" * 100 + b"B" * 20 + b"A" * 392

# The name, the text, the entries; and what stood there before, where something did.
FOLLOWED = [
    ("a write and a sync", OPEN + "pwrite64(3<db>, 'A*512', 512, 512) = 512\nfsync(3<db>) = 0", [("w", "db", 1, A), ("f",)]),
    ("places", OPEN + "write(3<db>, 'A*512', 512) = 512\nwrite(3<db>, 'B*512', 512) = 512\nlseek(3<db>, 0, SEEK_SET) = 0\nread(0x3, 0x7f, 0x200) = 0x200\nwrite(3<db>, 'C*512', 512) = 512",
     [("w", "db", 0, A), ("w", "db", 1, B), ("w", "db", 1, C)]),
    ("a part of a sector", OPEN + "write(3<db>, 'A*512', 512) = 512\npwrite64(3<db>, 'B*20', 20, 100) = 20", [("w", "db", 0, A), ("w", "db", 0, HALF)]),
    ("over two sectors", OPEN + "pwrite64(3<db>, 'A*4', 4, 510) = 4", [("w", "db", 0, bytes(510) + b"AAAA" + bytes(510))]),
    ("over what stood there", OPEN + "pwrite64(3<db>, 'B*20', 20, 100) = 20", [("w", "db", 0, HALF)], {b"db": A}),
    ("less than was asked for", OPEN + "write(3<db>, 'A*1024', 1024) = 512\nwrite(3<db>, 'B*512', 512) = 512", [("w", "db", 0, A), ("w", "db", 1, B)]),
    ("vectors", OPEN + "writev(3<db>, [{iov_base='A*512', iov_len=512}, {iov_base='', iov_len=0}, {iov_base='B*512', iov_len=512}], 3) = 1024", [("w", "db", 0, A + B)]),
    ("a write that fails with flags that nobody knows", OPEN + "pwritev2(3<db>, [{iov_base='A*512', iov_len=512}], 1, 0, 0x40 /* RWF_??? */) = -1 EOPNOTSUPP (Operation not supported)", []),
    ("a part of vectors", OPEN + "pwritev(3<db>, [{iov_base='A*512', iov_len=512}, {iov_base='B*512', iov_len=512}], 2, 512) = 512", [("w", "db", 1, A)]),
    ("pwritev2 at the place", OPEN + "pwritev2(3<db>, [{iov_base='A*512', iov_len=512}], 1, -1, 0) = 512\nwrite(3<db>, 'B*512', 512) = 512", [("w", "db", 0, A), ("w", "db", 1, B)]),
    ("pwritev2 through", OPEN + "pwritev2(3<db>, [{iov_base='A*512', iov_len=512}], 1, 0, RWF_DSYNC) = 512", [("w", "db", 0, A), ("fua", "db", 0, A)]),
    ("pwritev2 at the end", OPEN + "pwritev2(3<db>, [{iov_base='B*512', iov_len=512}], 1, 0, RWF_APPEND) = 512", [("w", "db", 1, B)], {b"db": A}),
    ("O_DSYNC", "openat(AT_FDCWD</elsewhere>, 'x', O_RDWR|O_CREAT|O_DSYNC, 0644) = 3<db>\nwrite(3<db>, 'A*512', 512) = 512", [("w", "db", 0, A), ("fua", "db", 0, A)]),
    ("O_SYNC", "openat(AT_FDCWD</elsewhere>, 'x', O_RDWR|O_CREAT|O_SYNC, 0644) = 3<db>\nwrite(3<db>, 'A*512', 512) = 512", [("w", "db", 0, A), ("fua", "db", 0, A)]),
    ("O_APPEND", "openat(AT_FDCWD</elsewhere>, 'x', O_RDWR|O_APPEND) = 3<db>\nwrite(3<db>, 'B*512', 512) = 512\npwrite64(3<db>, 'C*512', 512, 0) = 512", [("w", "db", 1, B), ("w", "db", 2, C)], {b"db": A}),
    ("F_SETFL", OPEN + "fcntl(3<db>, F_SETFL, O_RDWR|O_APPEND) = 0\nwrite(3<db>, 'B*512', 512) = 512", [("w", "db", 1, B)], {b"db": A}),
    ("dup", OPEN + "dup(3<db>) = 4<db>\nwrite(4<db>, 'A*512', 512) = 512\nclose(4<db>) = 0\nwrite(3<db>, 'B*512', 512) = 512", [("w", "db", 0, A), ("w", "db", 1, B)]),
    ("dup2 and F_DUPFD", OPEN + "dup2(3<db>, 9) = 9<db>\nfcntl(9<db>, F_DUPFD_CLOEXEC, 10) = 10<db>\nwrite(10<db>, 'A*512', 512) = 512\nwrite(9<db>, 'B*512', 512) = 512", [("w", "db", 0, A), ("w", "db", 1, B)]),
    ("two descriptors of one file", OPEN + OPEN.replace("3<", "5<") + "write(3<db>, 'A*512', 512) = 512\nwrite(5<db>, 'B*512', 512) = 512", [("w", "db", 0, A), ("w", "db", 0, B)]),
    ("a child shares the place", OPEN + "fork() = 101\n101 write(3<db>, 'A*512', 512) = 512\n101 +++ exited with 0 +++\nwrite(3<db>, 'B*512', 512) = 512", [("w", "db", 0, A), ("w", "db", 1, B)]),
    ("a child before its maker", OPEN + "clone(child_stack=NULL, flags=CLONE_CHILD_SETTID|SIGCHLD, child_tidptr=0x7f <unfinished ...>\n101 write(3<db>, 'A*512', 512) = 512\n101 +++ exited with 0 +++\n<... clone resumed>) = 101", [("w", "db", 0, A)]),
    ("a maker that has gone", OPEN + "vfork() = 101\n100 +++ exited with 0 +++\n101 write(3<db>, 'A*512', 512) = 512", [("w", "db", 0, A)], {}, "101 +++ killed by SIGKILL +++"),
    ("a thread opens for another", "clone3({flags=CLONE_VM|CLONE_FS|CLONE_FILES|CLONE_THREAD, stack=0x7f}, 88) = 101\n101 " + OPEN + "write(3<db>, 'A*512', 512) = 512\n101 +++ exited with 0 +++", [("w", "db", 0, A)]),
    ("execve", "openat(AT_FDCWD</elsewhere>, 'x', O_RDWR|O_CREAT|O_CLOEXEC, 0644) = 4<wal>\n" + OPEN + "execve('/bin/x', ['x'], 0x7f /* 9 vars */) = 0\nwrite(3<db>, 'A*512', 512) = 512\nopenat(AT_FDCWD</elsewhere>, 'x', O_RDONLY) = 4<wal>", [("w", "db", 0, A)]),
    ("execve of a thread", OPEN + "clone(child_stack=0x7f, flags=CLONE_VM|CLONE_FILES|CLONE_THREAD) = 101\n101 execve('/bin/x', ['x'], 0x7f <unfinished ...>\n100 +++ superseded by execve in pid 101 +++\n100 <... execve resumed>) = 0\nwrite(3<db>, 'A*512', 512) = 512", [("w", "db", 0, A)]),
    ("a write in flight at a sync", OPEN + "clone(child_stack=0x7f, flags=CLONE_VM|CLONE_FILES|CLONE_THREAD) = 101\npwrite64(3<db>, 'A*512', 512, 0) = 512\n101 pwrite64(3<db>, 'B*512', 512, 512 <unfinished ...>\nfsync(3<db> <unfinished ...>\n101 <... pwrite64 resumed>) = 512\n<... fsync resumed>) = 0\n101 +++ exited with 0 +++",
     [("w", "db", 0, A), ("w", "db", 1, B), ("fua", "db", 0, A)]),
    ("a sector that is written again in a sync", OPEN + "clone(child_stack=0x7f, flags=CLONE_VM|CLONE_FILES|CLONE_THREAD) = 101\npwrite64(3<db>, 'A*512', 512, 0) = 512\nfsync(3<db> <unfinished ...>\n101 pwrite64(3<db>, 'B*512', 512, 0) = 512\n<... fsync resumed>) = 0\n101 +++ exited with 0 +++",
     [("w", "db", 0, A), ("w", "db", 0, B), ("fua", "db", 0, A), ("w", "db", 0, B)]),
    ("a call that strace didn't see, since its thread was being ended", OPEN + THREAD + "write(3<db>, 'A*512', 512) = 512\n101 ???( <unfinished ...>\n" + GONE, [("w", "db", 0, A)]),
    ("a sync that never ended", OPEN + "pwrite64(3<db>, 'A*512', 512, 0) = 512\nfsync(3<db> <unfinished ...>", [("w", "db", 0, A)]),
    ("a sync of another file", OPEN + WAL + "write(3<db>, 'A*512', 512) = 512\nwrite(4<wal>, 'B*512', 512) = 512\nfsync(4<wal>) = 0\nfdatasync(3<db>) = 0", [("w", "db", 0, A), ("w", "wal", 0, B), ("fua", "wal", 0, B), ("f",)]),
    ("runs of sectors", OPEN + WAL + "write(4<wal>, 'C*512', 512) = 512\npwrite64(3<db>, 'A*512', 512, 0) = 512\npwrite64(3<db>, 'B*512', 512, 512) = 512\npwrite64(3<db>, 'C*512', 512, 2048) = 512\nfsync(3<db>) = 0",
     [("w", "wal", 0, C), ("w", "db", 0, A), ("w", "db", 1, B), ("w", "db", 4, C), ("fua", "db", 0, A + B), ("fua", "db", 4, C)]),
    ("sync and syncfs", OPEN + WAL + "write(3<db>, 'A*512', 512) = 512\nwrite(4<wal>, 'B*512', 512) = 512\nsync() = 0\nwrite(3<db>, 'C*512', 512) = 512\nsyncfs(4<wal>) = 0", [("w", "db", 0, A), ("w", "wal", 0, B), ("f",), ("w", "db", 1, C), ("f",)]),
    ("syncfs of another file system", OPEN + "write(3<db>, 'A*512', 512) = 512\nopenat(AT_FDCWD</elsewhere>, 'y', O_RDONLY) = 5</other/y>\nsyncfs(5</other/y>) = 0", [("w", "db", 0, A)]),
    ("sync_file_range makes nothing durable", OPEN + "write(3<db>, 'A*512', 512) = 512\nsync_file_range(3<db>, 0, 512, SYNC_FILE_RANGE_WRITE) = 0", [("w", "db", 0, A)]),
    ("a long write, and one in two lines with another's", OPEN + "pwrite64(3<db>, 'A*17408', 17408, 0) = 17408\npwrite64(3<db>, 'B*20480', 20480, 512 <unfinished ...>\n<... pwrite64 resumed>) = 20480\npwritev(3<db>, [{iov_base='C*17408', iov_len=17408}, {iov_base='D*512', iov_len=512}], 2, 0) = 17920", [("w", "db", 0, A * 34), ("w", "db", 1, B * 40), ("w", "db", 0, b"C" * 17408 + b"D" * 512)]),
    ("ftruncate makes it longer", OPEN + "ftruncate(3<db>, 1024) = 0\npwrite64(3<db>, 'A*512', 512, 512) = 512", [("w", "db", 1, A)]),
    ("fallocate", OPEN + "write(3<db>, 'A*512', 512) = 512\nfallocate(3<db>, 0, 0, 1024) = 0\nfallocate(3<db>, FALLOC_FL_KEEP_SIZE|FALLOC_FL_PUNCH_HOLE, 0, 512) = 0", [("w", "db", 0, A), ("w", "db", 0, bytes(512))]),
    ("holes and zeros through O_DSYNC and O_SYNC", "openat(AT_FDCWD</elsewhere>, 'x', O_RDWR|O_CREAT|O_DSYNC, 0644) = 3<db>\nwrite(3<db>, 'A*512', 512) = 512\nfallocate(3<db>, FALLOC_FL_KEEP_SIZE|FALLOC_FL_PUNCH_HOLE, 0, 512) = 0\nopenat(AT_FDCWD</elsewhere>, 'x', O_RDWR|O_SYNC) = 4<db>\nfallocate(4<db>, FALLOC_FL_ZERO_RANGE, 0, 512) = 0",
     [("w", "db", 0, A), ("fua", "db", 0, A), ("w", "db", 0, bytes(512)), ("w", "db", 0, bytes(512))]),
    ("O_PATH looks at no other flag", OPEN + "write(3<db>, 'A*512', 512) = 512\nopenat(AT_FDCWD</elsewhere>, 'x', O_RDONLY|O_TRUNC|O_PATH) = 4<db>\nwrite(3<db>, 'B*512', 512) = 512", [("w", "db", 0, A), ("w", "db", 1, B)]),
    ("a last unlink through /proc/self", OPEN + "write(3<db>, 'A*512', 512) = 512\nchdir('/r/files') = 0\nunlink('/proc/self/cwd/db') = 0", [("w", "db", 0, A)]),
    ("a file of /proc", OPEN + "truncate('/proc/self/comm', 0) = 0\nwrite(3<db>, 'A*512', 512) = 512", [("w", "db", 0, A)]),
    ("a mark", OPEN + "write(3<db>, 'A*512', 512) = 512\nopenat(AT_FDCWD</elsewhere>, 'm', O_WRONLY|O_APPEND) = 5</r/marks>\nwrite(5</r/marks>, '0 commit 1\n7 two\n', 17) = 17".replace("1\n7 two\n'", "1'").replace(", 17) = 17", ", 10) = 10"), None),
    ("a file that is skipped", OPEN.replace("<db>", "<lock>") + "mmap(NULL, 4096, PROT_READ|PROT_WRITE, MAP_SHARED, 3<lock>, 0) = 0x7f0000\nwrite(3<lock>, 'A*512', 512) = 512\nunlink('/r/files/lock') = 0", [], {}, None, ["lo*"]),
    ("mappings that are read", OPEN + "mmap(NULL, 4096, PROT_READ, MAP_SHARED, 3<db>, 0) = 0x700000\nmunmap(0x700000, 4096) = 0\nmprotect(0x700000, 4096, PROT_READ|PROT_WRITE) = 0\nmmap(NULL, 4096, PROT_READ|PROT_WRITE, MAP_PRIVATE, 3<db>, 0) = 0x700000\nmprotect(0x700000, 4096, PROT_READ|PROT_WRITE) = 0", []),
    ("advice that makes no hole, and a hole in other memory", OPEN + "mmap(NULL, 4096, PROT_READ, MAP_SHARED, 3<db>, 0) = 0x700000\nmadvise(0x700000, 4096, MADV_DONTNEED) = 0\nmadvise(0x900000, 4096, MADV_REMOVE) = 0\nmunmap(0x700000, 4096) = 0\nmadvise(0x700000, 4096, MADV_REMOVE) = 0", []),
    ("calls that fail", OPEN + "write(3<db>, 'A*512', 512) = -1 ENOSPC (No space left on device)\nrename('/r/files/db', '/r/files/x') = -1 ENOENT (No such file or directory)\nio_uring_setup(8, {flags=0}) = -1 ENOSYS (Function not implemented)\nsyscall_0x1d7(0, 0) = -1 ENOSYS (Function not implemented)\nioctl(3<db>, FICLONE, 5</x>) = -1 EOPNOTSUPP (Operation not supported)", []),
    ("syncs that fail and had nothing to do", OPEN + "fsync(3<db>) = -1 EIO (Input/output error)\nwrite(3<db>, 'A*512', 512) = 512\nopenat(AT_FDCWD</elsewhere>, 'x', O_RDONLY|O_PATH) = 4<db>\nfsync(4<db>) = -1 EBADF (Bad file descriptor)\nfsync(9) = -1 EBADF (Bad file descriptor)", [("w", "db", 0, A)]),
    ("a last unlink", OPEN + "write(3<db>, 'A*512', 512) = 512\nfsync(3<db>) = 0\nunlink('/r/files/db') = 0\nfsync(3<db>(deleted)) = 0\nclose(3<db>(deleted)) = 0", [("w", "db", 0, A), ("f",)]),
    ("an empty file that comes and goes", OPEN + "unlinkat(5</r/files>, 'db', 0) = 0\nclose(3<db>(deleted)) = 0\n" + OPEN + "write(3<db>, 'A*512', 512) = 512", [("w", "db", 0, A)]),
    ("a last truncate", OPEN + "write(3<db>, 'A*512', 512) = 512\nftruncate(3<db>, 0) = 0", [("w", "db", 0, A)]),
    ("other files and folders", "openat(AT_FDCWD</elsewhere>, 'y', O_WRONLY|O_CREAT|O_TRUNC, 0644) = 3</elsewhere/y>\nwrite(3</elsewhere/y>, 'A*512', 512) = 512\nrename('/elsewhere/y', '/elsewhere/z') = 0\nmkdir('/r/files/in', 0777) = 0\nopenat(AT_FDCWD</elsewhere>, 'x', O_RDONLY|O_DIRECTORY) = 4<in>\nfsync(4<in>) = 0\nopenat(AT_FDCWD</elsewhere>, 'x', O_RDWR|O_CREAT, 0644) = 5<in/db>\nwrite(5<in/db>, 'A*512', 512) = 512", [("w", "in/db", 0, A)]),
    ("a copy", OPEN + WAL + "write(3<db>, 'A*700', 700) = 700\nlseek(3<db>, 0, SEEK_SET) = 0\ncopy_file_range(3<db>, NULL, 4<wal>, NULL, 9223372035781033984, 0) = 700\ncopy_file_range(3<db>, NULL, 4<wal>, NULL, 9223372035781033984, 0) = 0\nwrite(4<wal>, 'A*324', 324) = 324",
     [("w", "db", 0, A + A[:188] + bytes(324)), ("w", "wal", 0, A + A[:188] + bytes(324)), ("w", "wal", 1, A)]),
    ("a copy from place to place", OPEN + WAL + "write(3<db>, 'A*512', 512) = 512\nwrite(3<db>, 'B*512', 512) = 512\ncopy_file_range(3<db>, [512], 4<wal>, [0], 512, 0) = 512\nsendfile(4<wal>, 3<db>, [0] => [512], 512) = 512\nwrite(3<db>, 'C*512', 512) = 512\nwrite(4<wal>, 'C*512', 512) = 512",
     [("w", "db", 0, A), ("w", "db", 1, B), ("w", "wal", 0, B), ("w", "wal", 0, A), ("w", "db", 2, C), ("w", "wal", 1, C)]),
    ("a copy within a file", OPEN + "write(3<db>, 'A*512', 512) = 512\ncopy_file_range(3<db>, [0], 3<db>, NULL, 512, 0) = 512", [("w", "db", 0, A), ("w", "db", 1, A)]),
    ("a copy through O_DSYNC", OPEN + "write(3<db>, 'A*512', 512) = 512\n" + WAL.replace("O_CREAT", "O_CREAT|O_DSYNC") + "copy_file_range(3<db>, [0], 4<wal>, [0], 512, 0) = 512", [("w", "db", 0, A), ("w", "wal", 0, A)]),
    ("copies to what isn't recorded move the place", OPEN + "sendfile(7<socket:[1]>, 3<db>, NULL, 512) = 512\nsplice(3<db>, NULL, 8<pipe:[2]>, NULL, 512, 0) = 512\nwrite(3<db>, 'C*512', 512) = 512\nsendfile(7<socket:[1]>, 3<db>, [0] => [9], 9) = 9\nwrite(3<db>, 'C*512', 512) = 512\ntee(8<pipe:[2]>, 9<pipe:[3]>, 512, 0) = 512",
     [("w", "db", 2, C), ("w", "db", 3, C)], {b"db": A + B}),
    ("a copy of what was written to a pipe", OPEN + PIPE + "write(6<pipe:[1]>, 'B*600', 600) = 600\nwritev(6<pipe:[1]>, [{iov_base='A*424', iov_len=424}], 1) = 424\nread(0x5, 0x7f0000, 0x64) = 100\nread(0x5, 0x7f0000, 0x64) = -1 EAGAIN (Resource temporarily unavailable)\n" + TAKEN + "splice(5<pipe:[1]>, NULL, 3<db>, NULL, 512, 0) = 412",
     [("w", "db", 0, B[:500] + A[:12]), ("w", "db", 1, A[:412] + bytes(100))]),
    ("a copy while a write to the pipe lasts", OPEN + PIPE + THREAD + "write(6<pipe:[1]>, 'A*1024', 1024 <unfinished ...>\n101 " + TAKEN + "101 read(0x5, 0x7f0000, 0x64) = 100\n<... write resumed>) = 1000\nwrite(6<pipe:[1]>, 'B*600', 600) = 600\n101 " + TAKEN + GONE, [("w", "db", 0, A), ("w", "db", 1, A[:388] + B[:124])]),
    ("a file through two pipes", OPEN + WAL + PIPE + "dup(5<pipe:[1]>) = 9<pipe:[1]>\npipe([7<pipe:[2]>, 8<pipe:[2]>]) = 0\nwrite(4<wal>, 'A*512', 512) = 512\nsplice(4<wal>, [0] => [512], 6<pipe:[1]>, NULL, 512, 0) = 512\ntee(5<pipe:[1]>, 8<pipe:[2]>, 512, 0) = 512\n" + TAKEN.replace("5<", "9<") + "splice(7<pipe:[2]>, NULL, 3<db>, NULL, 512, 0) = 512",
     [("w", "wal", 0, A), ("w", "db", 0, A), ("w", "db", 1, A)]),
    ("a pipe that a child writes", OPEN + PIPE + "clone(child_stack=NULL, flags=CLONE_CHILD_SETTID|SIGCHLD, child_tidptr=0x7f) = 101\n101 dup2(6<pipe:[1]>, 1) = 1<pipe:[1]>\n101 write(1<pipe:[1]>, 'A*512', 512) = 512\n" + GONE + TAKEN, [("w", "db", 0, A)]),
    ("a reflink", OPEN + WAL + "ioctl(4<wal>, BTRFS_IOC_CLONE or FICLONE, 3) = 0\nioctl(4<wal>, BTRFS_IOC_CLONE_RANGE or FICLONERANGE, {src_fd=3<db>, src_offset=512, src_length=0, dest_offset=0}) = 0", [("w", "wal", 0, A + B), ("w", "wal", 0, B)], {b"db": A + B}),
    ("a file that is copied after its reader closed it", OPEN + WAL + "close(3<db>) = 0\n" + OPEN + "copy_file_range(3<db>, NULL, 4<wal>, NULL, 512, 0) = 512", [("w", "wal", 0, A)], {b"db": A}),
    ("a close within a write of another thread", OPEN + THREAD + "write(3<db>, 'A*512', 512 <unfinished ...>\n101 close(3<db>) = 0\n<... write resumed>) = 512\n" + GONE, [("w", "db", 0, A)]),
    ("a write and a close within an open that gives the number again", OPEN + THREAD + "101 openat(AT_FDCWD</elsewhere>, 'x', O_RDWR|O_CREAT, 0644 <unfinished ...>\nwrite(3<db>, 'A*512', 512) = 512\nclose(3<db>) = 0\n101 <... openat resumed>) = 3<wal>\nwrite(3<wal>, 'B*512', 512) = 512\n" + GONE, [("w", "db", 0, A), ("w", "wal", 0, B)]),
    ("a dup2 of another number at once, and one of a process of its own", OPEN + WAL + THREAD + "fork() = 102\nwrite(3<db>, 'A*512', 512 <unfinished ...>\n101 dup2(4<wal>, 5) = 5<wal>\n102 dup2(4<wal>, 3) = 3<wal>\n<... write resumed>) = 512\n102 +++ exited with 0 +++\n" + GONE, [("w", "db", 0, A)]),
    ("a mark begins before a sync of another thread has ended", OPEN + THREAD + "write(3<db>, 'A*512', 512) = 512\nopenat(AT_FDCWD</elsewhere>, 'm', O_WRONLY|O_APPEND) = 5</r/marks>\n101 fsync(3<db> <unfinished ...>\nwrite(5</r/marks>, '0 one@0 two@', 12 <unfinished ...>\n101 <... fsync resumed>) = 0\n<... write resumed>) = 12\n" + GONE, [("w", "db", 0, A), ("m", "one"), ("m", "two"), ("f",)]),
    ("a mark within which another thread syncs, and begins one of its own", OPEN + THREAD + "write(3<db>, 'A*512', 512) = 512\nopenat(AT_FDCWD</elsewhere>, 'm', O_WRONLY|O_APPEND) = 5</r/marks>\nwrite(5</r/marks>, '0 one@', 6 <unfinished ...>\n101 fsync(3<db>) = 0\n101 write(5</r/marks>, '0 two@', 6 <unfinished ...>\n<... write resumed>) = 6\n101 <... write resumed>) = 6\n" + GONE, [("w", "db", 0, A), ("m", "one"), ("f",), ("m", "two")]),
    ("signals and remarks", OPEN + "--- SIGCHLD {si_signo=SIGCHLD, si_code=CLD_EXITED} ---\nwrite(3<db>, 'A*512', 512) = 512", [("w", "db", 0, A)]),
]

MARKED = OPEN + "write(3<db>, 'A*512', 512) = 512\nopenat(AT_FDCWD</elsewhere>, 'm', O_WRONLY|O_APPEND) = 5</r/marks>\n"
MAPPED = "mmap(NULL, 4096, PROT_READ, MAP_SHARED, 3<db>, 0) = 0x700000\n"
THREAD = "clone(child_stack=0x7f, flags=CLONE_VM|CLONE_FILES|CLONE_THREAD) = 101\n"
# Two threads that share two files; what is said where a number is used and given at once; an open that gives a number again.
BOTH = OPEN + WAL + THREAD
NUMBER = "which file descriptor 3 was of isn't known; another try may pass"
NEXT = "openat(AT_FDCWD</elsewhere>, 'x', O_RDWR|O_CREAT, 0644) = 3<next>\n"
FULL = OPEN + WAL + "pwrite64(3<db>, 'A*512', 512, 0) = 512\n"

# The name, the text, and what is said, with the line of the text that shows it.
REFUSED = [
    ("a shared writable mapping", OPEN + "mmap(NULL, 4096, PROT_READ|PROT_WRITE, MAP_SHARED, 3<db>, 0) = 0x700000", "calls:2: .*a shared mapping can be written unseen"),
    ("another word for shared", OPEN + "mmap(NULL, 4096, PROT_WRITE, MAP_SHARED_VALIDATE|MAP_SYNC, 3<db>, 0) = 0x700000", "calls:2: .*a shared mapping can be written unseen"),
    ("a mapping that becomes writable", OPEN + MAPPED + "mprotect(0x700000, 4096, PROT_READ|PROT_WRITE) = 0", "calls:3: .*can be written unseen"),
    ("a mapping that moves", OPEN + MAPPED + "mremap(0x700000, 4096, 8192, MREMAP_MAYMOVE) = 0x900000\nmprotect(0x901000, 4096, PROT_WRITE) = 0", "calls:4: .*can be written unseen"),
    ("a mapping of a child", OPEN + MAPPED + "fork() = 101\n101 mprotect(0x700000, 4096, PROT_WRITE) = 0\n101 +++ exited with 0 +++", "calls:4: .*can be written unseen"),
    ("a hole that is made by a mapping for reading", OPEN + MAPPED + "madvise(0x700000, 4096, MADV_REMOVE) = 0", "calls:3: .*a hole in a mapped file is made unseen; --mapped looks"),
    ("a hole in a part of a mapping, which is said to fail", OPEN + MAPPED + "madvise(0x6ff000, 8192, MADV_REMOVE) = -1 ENOMEM (Cannot allocate memory)", "calls:3: .*a hole in a mapped file is made unseen"),
    ("a hole that another process makes by a mapping", OPEN + MAPPED + "fork() = 101\n101 process_madvise(5</elsewhere/pidfd>, [{iov_base=0x700000, iov_len=4096}], 1, MADV_REMOVE, 0) = 4096\n" + GONE, "calls:4: .*a hole in a mapped file is made unseen"),
    ("a file that is cut off where it is opened for reading", OPEN + "write(3<db>, 'A*512', 512) = 512\nopenat(AT_FDCWD</elsewhere>, 'x', O_RDONLY|O_TRUNC) = 4<db>\nwrite(3<db>, 'B*512', 512) = 512", "calls:4: .*is written after a name or a size was changed"),
    ("an unlink through /proc/self", OPEN + "write(3<db>, 'A*512', 512) = 512\nchdir('/r/files') = 0\nunlink('/proc/self/cwd/db') = 0\nwrite(3<db>, 'B*512', 512) = 512", "calls:5: .*it is unlinked|calls:5: .*after a name or a size was changed"),
    ("an unlink through the process itself", OPEN + "write(3<db>, 'A*512', 512) = 512\nchdir('/r/files') = 0\nunlink('/proc/100/cwd/db') = 0\nwrite(3<db>, 'B*512', 512) = 512", "calls:5: .*it is unlinked|calls:5: .*after a name or a size was changed"),
    ("a change of folder through /proc/self", OPEN + "write(3<db>, 'A*512', 512) = 512\nchdir('/r/files') = 0\nchdir('/proc/self/cwd') = 0\nunlink('db') = 0\nwrite(3<db>, 'B*512', 512) = 512", "calls:6: .*it is unlinked|calls:6: .*after a name or a size was changed"),
    ("a truncate through a descriptor's link", OPEN + "write(3<db>, 'A*512', 512) = 512\ntruncate('/dev/fd/3', 0) = 0\nwrite(3<db>, 'B*512', 512) = 512", "calls:4: .*after a name or a size was changed"),
    ("a path through a descriptor of a folder", OPEN + "write(3<db>, 'A*512', 512) = 512\nunlink('/proc/self/fd/7/db') = 0", "calls:3: .*what /proc/self/fd/7 is to the process isn't known"),
    ("a path through another process", OPEN + "unlink('/proc/7/cwd/db') = 0", "calls:2: .*what /proc/7/cwd is to the process isn't known"),
    ("a copy from a place that isn't known", OPEN + "copy_file_range(5</other>, NULL, 3<db>, NULL, 512, 0) = 512", "calls:2: .*from where in /other it copied isn't known; have it in .FILES by --base"),
    ("a copy of a file that isn't there", OPEN + "sendfile(3<db>, 5</no/other>, [0] => [512], 512) = 512", "calls:2: .*what /no/other held isn't known"),
    ("a copy from a pipe", OPEN + "splice(5<pipe:[1]>, NULL, 3<db>, NULL, 512, 0) = 512", "calls:2: .*what came from there isn't known; that is for the guest"),
    ("a copy from a FIFO of the folder", OPEN + "mknodat(AT_FDCWD</r/files>, 'p', S_IFIFO|0600) = 0\nopenat(AT_FDCWD</elsewhere>, '/r/files/p', O_RDWR) = 5<p>\nsplice(5<p>, NULL, 3<db>, NULL, 512, 0) = 512", "calls:4: .*what came from there isn't known; that is for the guest"),
    ("a long string that is cut off", OPEN + "write(3<db>, 'A*70000'..., 70000) = 70000", "calls:2: .*strace cut its string off"),
    ("a long string with another sign", OPEN + "write(3<db>, 'A*20000', 20000) = 20000".replace("'A*20000'", '"' + "\\x41" * 20000 + "\\xg1" + '"'), "calls:2: "),
    ("a string that isn't there", OPEN + 'write(3<db>, "@2.0", 4) = 4', "calls:2: .*is no string in hex"),
    ("two that write to a pipe at once", OPEN + PIPE + THREAD + "write(6<pipe:[1]>, 'A*512', 512 <unfinished ...>\n101 write(6<pipe:[1]>, 'B*512', 512) = 512\n<... write resumed>) = 512\n" + GONE + TAKEN, "calls:8: .*what came through the pipe isn't known: two calls wrote to it at once"),
    ("another that reads at once", OPEN + PIPE + THREAD + "write(6<pipe:[1]>, 'A*900', 900) = 900\nsplice(5<pipe:[1]>, NULL, 3<db>, NULL, 512, 0 <unfinished ...>\n101 read(0x5, 0x7f0000, 0x64) = 100\n<... splice resumed>) = 512\n" + GONE, "calls:5: .*another call read from it at once"),
    ("another that reads all the time", OPEN + PIPE + THREAD + "write(6<pipe:[1]>, 'A*900', 900) = 900\n101 read(0x5, 0x7f0000, 0x64 <unfinished ...>\n" + TAKEN + "101 <... read resumed>) = 100\n" + GONE, "calls:6: .*another call read from it at once"),
    ("more than was written to a pipe", OPEN + PIPE + "write(6<pipe:[1]>, 'A*100', 100) = 100\n" + TAKEN, "calls:4: .*not all of it was seen to be written"),
    ("a pipe of packets", OPEN + PIPE.replace("O_CLOEXEC", "O_DIRECT") + "write(6<pipe:[1]>, 'A*512', 512) = 512\n" + TAKEN, "calls:4: .*it is one of packets"),
    ("a pipe that pages are given to", OPEN + PIPE + "vmsplice(6<pipe:[1]>, [{iov_base=0x7f, iov_len=512}], 1, 0) = 512\n" + TAKEN, "calls:4: .*vmsplice isn't followed there"),
    ("a pipe that is handed over", OPEN + PIPE + "write(6<pipe:[1]>, 'A*512', 512) = 512\nsendmsg(9<socket:[7]>, {msg_control=[{cmsg_type=SCM_RIGHTS, cmsg_data=[6<pipe:[1]>]}]}, 0) = 1\n" + TAKEN, "calls:5: .*sendmsg isn't followed there"),
    ("a copy from nowhere", OPEN + "splice(5, NULL, 3<db>, NULL, 512, 0) = 512", "calls:2: .*what came from there isn't known"),
    ("a copy of the marks", MARKED + "sendfile(3<db>, 5</r/marks>, [0] => [5], 5) = 5", "calls:4: .*what came from there isn't known"),
    ("a copy to the marks", MARKED + "sendfile(5</r/marks>, 3<db>, [0] => [5], 5) = 5", "calls:4: .*a copy to there isn't followed"),
    ("a copy of more than there is", OPEN + WAL + "copy_file_range(3<db>, NULL, 4<wal>, NULL, 512, 0) = 512", "calls:3: .*it copied more than db has"),
    ("a copy that fails badly", OPEN + WAL + "copy_file_range(3<db>, NULL, 4<wal>, NULL, 512, 0) = -1 EIO (Input/output error)", "calls:3: .*what it wrote isn't known"),
    ("a thread that goes on after a call that strace didn't see", OPEN + THREAD + "101 ???( <unfinished ...>\n101 write(3<db>, 'A*512', 512) = 512\n" + GONE, "calls:4: process 101 goes on after a call that strace didn't see"),
    ("a text that ends after a call that strace didn't see", OPEN + THREAD + "101 ???( <unfinished ...>", "calls: the text ends before process 101 does"),
    ("a call that strace didn't see within another", OPEN + THREAD + "101 write(3<db>, 'A*512', 512 <unfinished ...>\n101 ???( <unfinished ...>\n" + GONE, "calls:4: no line of strace"),
    ("a copy that never ended", OPEN + WAL + "copy_file_range(3<db>, NULL, 4<wal>, NULL, 512, 0 <unfinished ...>", "calls:3: .*ended within the call"),
    ("a reflink that never ended", OPEN + WAL + "ioctl(4<wal>, BTRFS_IOC_CLONE or FICLONE, 3 <unfinished ...>", "calls:3: .*ended within the call"),
    ("a write of what is copied", FULL + THREAD + "copy_file_range(3<db>, [0], 4<wal>, [0], 512, 0 <unfinished ...>\n101 pwrite64(3<db>, 'B*9', 9, 9) = 9\n<... copy_file_range resumed>) = 512\n101 +++ exited with 0 +++", "calls:5: .*wrote at once what it copied"),
    ("a copy within a write of it", FULL + THREAD + "pwrite64(3<db>, 'B*9', 9, 9 <unfinished ...>\n101 copy_file_range(3<db>, [0], 4<wal>, [0], 512, 0) = 512\n<... pwrite64 resumed>) = 9\n101 +++ exited with 0 +++", "calls:5: .*another call copied the same sectors at once"),
    ("a copy within a write that begins first", FULL + THREAD + "pwrite64(3<db>, 'B*9', 9, 9 <unfinished ...>\n101 copy_file_range(3<db>, [0], 4<wal>, [0], 512, 0 <unfinished ...>\n<... pwrite64 resumed>) = 9\n101 <... copy_file_range resumed>) = 512\n101 +++ exited with 0 +++", "calls:6: .*wrote at once what it copied"),
    ("a copy within a truncate by the name", FULL + THREAD + "truncate('/r/files/db', 9 <unfinished ...>\n101 copy_file_range(3<db>, [0], 4<wal>, [0], 512, 0) = 512\n<... truncate resumed>) = 0\n101 +++ exited with 0 +++", "calls:5: .*another call copied the same sectors at once"),
    ("a copy from a place that moves", FULL + THREAD + "copy_file_range(3<db>, NULL, 4<wal>, [0], 512, 0 <unfinished ...>\n101 read(0x3, 0x7f, 0x9) = 0x9\n<... copy_file_range resumed>) = 512\n101 +++ exited with 0 +++", "calls:5: .*moved the place at once"),
    ("a copy to a place that moves", FULL + THREAD + "copy_file_range(3<db>, [0], 4<wal>, NULL, 512, 0 <unfinished ...>\n101 read(0x4, 0x7f, 0x9) = 0x9\n<... copy_file_range resumed>) = 512\n101 +++ exited with 0 +++", "calls:5: .*moved the place at once"),
    ("FICLONE", OPEN + "ioctl(3<db>, FICLONE, 5</other>) = 0", "calls:2: .*how much of the file it took isn't known"),
    ("FICLONERANGE", OPEN + "ioctl(3<db>, FICLONERANGE, {src_fd=5</other>, src_offset=0, src_length=0, dest_offset=0}) = 0", "calls:2: .*how much of the file it took isn't known"),
    ("another ioctl", OPEN + "ioctl(3<db>, BTRFS_IOC_DEFRAG, NULL) = 0", "calls:2: .*this ioctl isn't followed"),
    ("io_uring", OPEN + "io_uring_setup(8, {flags=0}) = 5", "calls:2: .*what a ring writes isn't seen"),
    ("io_submit", OPEN + "io_submit(0x7f, 1, [{aio_data=0, aio_lio_opcode=IOCB_CMD_PWRITE, aio_fildes=3<db>}]) = 1", "calls:2: .*isn't followed"),
    ("fsync that fails", OPEN + "write(3<db>, 'A*512', 512) = 512\nfsync(3<db>) = -1 EIO (Input/output error)", "calls:3: .*a sync that fails"),
    ("a write that fails badly", OPEN + "write(3<db>, 'A*512', 512) = -1 EIO (Input/output error)", "calls:2: .*leaves nothing that is known"),
    ("a call that nobody knows", OPEN + "syscall_0x1d7(0x3, 0x7f) = 0", "calls:2: .*this strace doesn't know the call"),
    ("a call that isn't followed", OPEN + "vmnew(3<db>, 0x7f) = 0", "calls:2: .*this call isn't followed, and may write db"),
    ("a rename", OPEN + "write(3<db>, 'A*512', 512) = 512\nrename('/r/files/db', '/r/files/x') = 0", "calls:3: .*db is renamed, and names are left out; record it in a guest"),
    ("a rename into the folder", OPEN + "renameat2(AT_FDCWD</elsewhere>, 'y', AT_FDCWD</r/files>, 'new', RENAME_NOREPLACE) = 0", "calls:2: .*new is renamed"),
    ("a rename of a folder", "mkdir('/r/files/in', 0777) = 0\nopenat(AT_FDCWD</elsewhere>, 'x', O_RDWR|O_CREAT, 0644) = 5<in/db>\nrename('/r/files/in', '/r/files/out') = 0", "calls:3: .*in is renamed"),
    ("a link", OPEN + "link('/r/files/db', '/elsewhere/x') = 0", "calls:2: .*db gets another name"),
    ("a symbolic link", OPEN + "symlink('/r/files/db', '/elsewhere/x') = 0", "calls:2: .*db gets another name"),
    ("a write after an unlink", OPEN + "write(3<db>, 'A*512', 512) = 512\nunlink('/r/files/db') = 0\nwrite(3<db>(deleted), 'A*512', 512) = 512", "calls:4: .*db is written after a name or a size was changed, which is left out: calls:3"),
    ("a write of another file after an unlink", OPEN + WAL + "write(3<db>, 'A*512', 512) = 512\nunlink('/r/files/db') = 0\nwrite(4<wal>, 'A*512', 512) = 512", "calls:5: .*wal is written after a name"),
    ("a mark after an unlink", MARKED + "unlink('/r/files/db') = 0\nwrite(5</r/marks>, '0 one@', 6) = 6", "calls:5: .*a mark is made after a name"),
    ("a file that is made again", OPEN + "write(3<db>, 'A*512', 512) = 512\nunlink('/r/files/db') = 0\n" + OPEN, "calls:4: .*db is made after a name"),
    ("a write after a truncate", OPEN + "write(3<db>, 'A*512', 512) = 512\nftruncate(3<db>, 10) = 0\nwrite(3<db>, 'A*512', 512) = 512", "calls:4: .*db is written after a name or a size"),
    ("a truncate by the name", OPEN + "write(3<db>, 'A*512', 512) = 512\ntruncate('/r/files/db', 10) = 0\nftruncate(3<db>, 100) = 0", "calls:4: .*db grows after a name or a size"),
    ("O_TRUNC", OPEN + "write(3<db>, 'A*512', 512) = 512\n" + OPEN.replace("O_CREAT", "O_TRUNC") + "write(3<db>, 'A*512', 512) = 512", "calls:4: .*db is written after a name or a size"),
    ("a hole that moves the rest", OPEN + "fallocate(3<db>, FALLOC_FL_COLLAPSE_RANGE, 0, 4096) = 0", "calls:2: .*what it moves isn't followed"),
    ("a file that nobody opened", "pwrite64(3<db>, 'A*512', 512, 0) = 512", "calls:1: .*no call was seen that made descriptor 3 one of db"),
    ("a descriptor of another file", OPEN + WAL + "pwrite64(3<wal>, 'A*512', 512, 0) = 512", "calls:3: .*no call was seen that made descriptor 3 one of wal"),
    ("a descriptor that came by a socket", OPEN + "recvmsg(7, {msg_control=[{cmsg_type=SCM_RIGHTS, cmsg_data=[9<db>]}]}, 0) = 1\npwrite64(9<db>, 'A*512', 512, 0) = 512", "calls:[23]: .*descriptor"),
    ("a file that nobody made", "openat(AT_FDCWD</elsewhere>, 'x', O_RDWR) = 3<db>", "calls:1: .*no call was seen that made db"),
    ("a file without a name", "openat(AT_FDCWD</elsewhere>, 'x', O_RDWR|O_TMPFILE, 0600) = 3<#1>", "calls:1: .*"),
    ("a strace that names no file", OPEN + "pwrite64(3, 'A*512', 512, 0) = 512", "calls:2: .*strace doesn't say that it is of"),
    ("an open that names no file", "openat(AT_FDCWD</elsewhere>, 'x', O_RDWR|O_CREAT, 0644) = 3", "calls:1: .*strace doesn't say which file it opened"),
    ("a string that was cut", OPEN + "write(3<db>, 'A*512'..., 600) = 600", "calls:2: .*strace cut its string off"),
    ("a string that isn't in hex", OPEN.replace("'x'", '"x"'), "calls:1: .*can't be read"),
    ("vectors that were cut", OPEN + "writev(3<db>, [{iov_base='A*512', iov_len=512}, ...], 3) = 1024", "calls:2: .*its vectors aren't whole"),
    ("more than was given", OPEN + "write(3<db>, 'A*512', 512) = 513", "calls:2: .*it wrote more than it was given"),
    ("flags that nobody knows", OPEN + "pwritev2(3<db>, [{iov_base='A*512', iov_len=512}], 1, 0, 0x40 /* RWF_??? */) = 512", "calls:2: .*its flags aren't known"),
    ("two writes at once", OPEN + THREAD + "pwrite64(3<db>, 'A*100', 100, 0 <unfinished ...>\n101 pwrite64(3<db>, 'B*100', 100, 200) = 100\n<... pwrite64 resumed>) = 100\n101 +++ exited with 0 +++", "calls:3: .*wrote the same sectors at once"),
    ("two writes at one place", OPEN + THREAD + "write(3<db>, 'A*512', 512 <unfinished ...>\n101 write(3<db>, 'B*512', 512) = 512\n<... write resumed>) = 512\n101 +++ exited with 0 +++", "calls:3: .*where it wrote isn't known"),
    ("a read at once", OPEN + THREAD + "write(3<db>, 'A*512', 512 <unfinished ...>\n101 read(0x3, 0x7f, 0x10) = 0x10\n<... write resumed>) = 512\n101 +++ exited with 0 +++", "calls:3: .*where it wrote isn't known"),
    ("a dup2 of the number within a write", BOTH + "write(3<db>, 'A*512', 512 <unfinished ...>\n101 dup2(4<wal>, 3) = 3<wal>\n<... write resumed>) = 512\n" + GONE, f"calls:4: .*{NUMBER}: calls:5: "),
    ("a write within a dup2 of the number", BOTH + "101 dup3(4<wal>, 3, O_CLOEXEC <unfinished ...>\nwrite(3<db>, 'A*512', 512) = 512\n101 <... dup3 resumed>) = 3<wal>\n" + GONE, f"calls:4: .*{NUMBER}: calls:5: "),
    ("a dup2 that begins within a write, and ends after it", BOTH + "write(3<db>, 'A*512', 512 <unfinished ...>\n101 dup2(4<wal>, 3 <unfinished ...>\n<... write resumed>) = 512\n101 <... dup2 resumed>) = 3<wal>\n" + GONE, f"calls:5: .*{NUMBER}: calls:4: "),
    ("a dup2 of the number that never ended", BOTH + "101 dup2(4<wal>, 3 <unfinished ...>\nwrite(3<db>, 'A*512', 512) = 512\n" + GONE, f"calls:4: .*{NUMBER}: calls:5: "),
    ("a dup2 of the number within a sync", BOTH + "write(3<db>, 'A*512', 512) = 512\nfsync(3<db> <unfinished ...>\n101 dup2(4<wal>, 3) = 3<wal>\n<... fsync resumed>) = 0\n" + GONE, f"calls:5: .*{NUMBER}: calls:6: "),
    ("a recorded file for the number within a write to another", BOTH + "openat(AT_FDCWD</elsewhere>, 'y', O_WRONLY) = 9</elsewhere/y>\nwrite(9</elsewhere/y>, 'A*512', 512 <unfinished ...>\n101 dup2(4<wal>, 9) = 9<wal>\n<... write resumed>) = 512\n" + GONE, "calls:5: .*descriptor 9 was of isn't known; another try may pass: calls:6: "),
    ("a close and an open within a write", BOTH + "write(3<db>, 'A*512', 512 <unfinished ...>\n101 close(3<db>) = 0\n101 " + NEXT + "<... write resumed>) = 512\n" + GONE, f"calls:4: .*{NUMBER}: calls:6: "),
    ("a close within a write, which an open gives again", BOTH + THREAD.replace("101", "102") + "101 " + NEXT.replace(" = 3<next>", "").replace("0644)", "0644 <unfinished ...>") + "write(3<db>, 'A*512', 512 <unfinished ...>\n102 close(3<db>) = 0\n<... write resumed>) = 512\n101 <... openat resumed>) = 3<next>\n102 +++ exited with 0 +++\n" + GONE, f"calls:5: .*{NUMBER}: calls:6: "),
    ("a close and a pipe within a sync", BOTH + "write(3<db>, 'A*512', 512) = 512\nfsync(3<db> <unfinished ...>\n101 close(3<db>) = 0\n101 pipe([3<pipe:[1]>, 9<pipe:[1]>]) = 0\n<... fsync resumed>) = 0\n" + GONE, f"calls:5: .*{NUMBER}: calls:7: "),
    ("a close and a socket within a write", BOTH + "write(3<db>, 'A*512', 512 <unfinished ...>\n101 close(3<db>) = 0\n101 socket(AF_UNIX, SOCK_STREAM, 0) = 3<socket:[1]>\n<... write resumed>) = 512\n" + GONE, f"calls:4: .*{NUMBER}: calls:6: "),
    ("O_APPEND within a write of a place", OPEN + THREAD + "pwrite64(3<db>, 'A*512', 512, 512 <unfinished ...>\n101 fcntl(3<db>, F_SETFL, O_RDWR|O_APPEND) = 0\n<... pwrite64 resumed>) = 512\n" + GONE, "calls:3: .*changed the flags of the descriptor at once"),
    ("a write of a place within O_APPEND", OPEN + THREAD + "101 fcntl(3<db>, F_SETFL, O_RDWR|O_APPEND <unfinished ...>\npwrite64(3<db>, 'A*512', 512, 512) = 512\n101 <... fcntl resumed>) = 0\n" + GONE, "calls:3: .*another call wrote db at once"),
    ("a write that never ended", OPEN + "write(3<db>, 'A*512', 512 <unfinished ...>", "calls:2: .*ended within the call"),
    ("a write without an answer", OPEN + "write(3<db>, 'A*512', 512) = ?", "calls:2: .*what it wrote isn't known"),
    ("a mark in pieces", MARKED + "write(5</r/marks>, '0 on', 4) = 4", "calls:4: .*a mark is one whole line"),
    ("a mark without a number", MARKED + "write(5</r/marks>, 'one@', 4) = 4", "calls:4: .*a mark is a number"),
    ("another root", OPEN + "chroot('/other') = 0", "calls:2: .*paths mean something else"),
    ("another view of files", OPEN + "unshare(CLONE_NEWNS) = 0", "calls:2: .*paths mean something else"),
    ("a child that isn't followed", OPEN + "clone(child_stack=NULL, flags=CLONE_UNTRACED|SIGCHLD) = 101", "calls:2: .*strace doesn't follow it"),
    ("a process that nobody made", OPEN + "101 write(3<db>, 'A*512', 512) = 512\n101 +++ exited with 0 +++", "calls:2: .*no call was seen that made process 101"),
    ("a call within a call", OPEN + "fsync(3<db> <unfinished ...>\nfsync(3<db>) = 0", "calls:3: .*begins a call within another"),
    ("an end without a begin", OPEN + "<... fsync resumed>) = 0", "calls:2: .*ends a call that didn't begin"),
    ("an end of another call", OPEN + "fsync(3<db> <unfinished ...>\n<... write resumed>) = 0", "calls:3: .*ends a call that didn't begin"),
    ("another text", "strace: exec: Permission denied", "calls:1: no line of strace"),
    ("memory by a file", "openat(AT_FDCWD</elsewhere>, 'x', O_RDWR) = 3</proc/7/mem>", "calls:1: .*to memory isn't followed"),
    ("ptrace", "ptrace(PTRACE_ATTACH, 7) = 0", "calls:1: .*memory of others"),
]


def row_fault(name, text, entries, before=None, last=None, skipped=()):
    """What is wrong with what is made of a text."""
    if name == "a mark":
        text, entries = MARKED + "write(5</r/marks>, '0 commit 1@', 11) = 11", [("w", "db", 0, A), ("m", "commit 1")]
    try:
        found = entries_of(followed(strace(text, last or "100 +++ exited with 0 +++").replace(rb"\x40", rb"\x0a"), before, skipped))
    except Refused as refused:
        return f"{name}: refused: {refused}"
    return None if found == entries else f"{name}: {found}"


def refused_fault(name, text, says):
    """What is wrong with how a text is refused."""
    try:
        found = entries_of(followed(strace(text).replace(rb"\x40", rb"\x0a")))
    except Refused as refused:
        return None if re.match(says, str(refused)) else f"{name}: {refused}"
    return f"{name}: it isn't refused: {found}"


# Copies of a file from outside, `source`, which has A, B and C. The name, the text after the opens of it as 5 and of db as 3; the
# entries, or what is said.
SOURCE = [
    ("a copy", "copy_file_range(5<source>, NULL, 3<db>, NULL, 9999, 0) = 1536", [("w", "db", 0, A + B + C)]),
    ("a copy after a read", "read(0x5, 0x7f, 0x200) = 0x200\ncopy_file_range(5<source>, NULL, 3<db>, NULL, 512, 0) = 512\nsendfile(3<db>, 5<source>, NULL, 512) = 512", [("w", "db", 0, B), ("w", "db", 1, C)]),
    ("a copy after lseek, by another descriptor", "dup(5<source>) = 6<source>\nlseek(6<source>, 1024, SEEK_SET) = 1024\nsendfile(3<db>, 5<source>, NULL, 512) = 512", [("w", "db", 0, C)]),
    ("a child shares the place", "fork() = 101\n101 read(0x5, 0x7f, 0x200) = 0x200\n101 +++ exited with 0 +++\nsendfile(3<db>, 5<source>, NULL, 512) = 512", [("w", "db", 0, B)]),
    ("another that opens it has a place of its own", "read(0x5, 0x7f, 0x200) = 0x200\nopenat(AT_FDCWD</elsewhere>, 'x', O_RDONLY) = 6<source>\nsendfile(3<db>, 6<source>, NULL, 512) = 512", [("w", "db", 0, A)]),
    ("readv and preadv2", "readv(0x5, 0x7f, 0x1) = 0x200\npreadv2(5<source>, [{iov_base='A*512', iov_len=512}], 1, -1, 0) = 512\npreadv2(5<source>, [{iov_base='A*512', iov_len=512}], 1, 0, 0) = 512\nsendfile(3<db>, 5<source>, NULL, 512) = 512", [("w", "db", 0, C)]),
    ("a place of its own", "copy_file_range(5<source>, [512], 3<db>, [0], 512, 0) = 512\ncopy_file_range(5<source>, NULL, 3<db>, [0], 512, 0) = 512", [("w", "db", 0, B), ("w", "db", 0, A)]),
    ("FICLONERANGE", "ioctl(3<db>, BTRFS_IOC_CLONE_RANGE or FICLONERANGE, {src_fd=5<source>, src_offset=512, src_length=512, dest_offset=0}) = 0", [("w", "db", 0, B)]),
    ("a read at once", "clone(child_stack=0x7f, flags=CLONE_VM|CLONE_FILES|CLONE_THREAD) = 101\nsendfile(3<db>, 5<source>, NULL, 512 <unfinished ...>\n101 read(0x5, 0x7f, 0x10) = 0x10\n<... sendfile resumed>) = 512\n101 +++ exited with 0 +++", "from where in .*/source it copied isn't known; have it in .FILES by --base"),
    ("a read and an lseek at once", "clone(child_stack=0x7f, flags=CLONE_VM|CLONE_FILES|CLONE_THREAD) = 101\nread(0x5, 0x7f, 0x10 <unfinished ...>\n101 lseek(5<source>, 512, SEEK_SET) = 512\n<... read resumed>) = 0x10\nsendfile(3<db>, 5<source>, NULL, 512) = 512\n101 +++ exited with 0 +++", "from where in .*/source it copied isn't known"),
    ("an append moves the place", "fcntl(5<source>, F_SETFL, O_RDWR|O_APPEND) = 0\nwrite(5<source>, 'A*9', 9) = 9\nsendfile(3<db>, 5<source>, NULL, 512) = 512", "from where in .*/source it copied isn't known"),
    ("more than it has", "copy_file_range(5<source>, NULL, 3<db>, NULL, 9999, 0) = 1537", "it hasn't as many bytes"),
    ("an unlinked file", "sendfile(3<db>, 5<source>(deleted), NULL, 512) = 512", "held isn't known: it is unlinked"),
    ("a file that is renamed", "rename('x', 'source') = 0\nsendfile(3<db>, 5<source>, NULL, 512) = 512", "held isn't known: the program renames it"),
    ("a folder that is renamed", "sendfile(3<db>, 5<source>, NULL, 512) = 512\nrename('/other', 'folder') = 0\nsendfile(3<db>, 5<source>, NULL, 512) = 512", "held isn't known: the program renames it"),
]


def source_faults():
    """What is wrong with copies from outside: what they are made of, and what is refused, for instance a file that was changed late."""
    found = []
    with tempfile.TemporaryDirectory() as folder:
        source = Path(os.path.realpath(folder), "source")
        source.write_bytes(A + B + C)
        begun = source.stat().st_ctime_ns + 1
        late = ("a file that was changed as late", SOURCE[0][1], "held isn't known: (it was changed after the recording began|by its file system)")
        for name, text, wanted, when in [*((*it, begun) for it in SOURCE), (*late, begun - 1), (*late, 0)]:
            text = OPEN + "openat(AT_FDCWD</elsewhere>, 'x', O_RDONLY) = 5<source>\n" + text
            text = text.replace("<source>", f"<{source}>").replace("'source'", f"'{source}'").replace("'folder'", f"'{source.parent}'")
            try:
                made = entries_of(followed(strace(text), begun=when))
                good = made == wanted
            except Refused as refused:
                made = str(refused)
                good = isinstance(wanted, str) and re.search(wanted, made)
            found += [] if good else [f"from outside, {name}: {made}"]
    return found


def whole_text():
    """A text with all that is followed."""
    text = OPEN + WAL + THREAD + MAPPED + "write(3<db>, 'A*700', 700) = 700\nfsync(3<db> <unfinished ...>\n101 pwrite64(4<wal>, 'B*512', 512, 512) = 512\n"
    text += "<... fsync resumed>) = 0\nfork() = 102\n102 write(3<db>, 'C*30', 30) = 30\n102 +++ exited with 0 +++\n101 +++ exited with 0 +++\nfdatasync(4<wal>) = 0"
    return strace(text)


def cut_faults():
    """What is wrong where a text is cut off: each is refused."""
    text, found = whole_text(), []
    entries_of(followed(text))
    for end in range(0, len(text), 7):
        try:
            found.append(f"cut at {end}: {entries_of(followed(text[:end]))}")
        except Refused as refused:
            if not str(refused).startswith("calls:"):
                found.append(f"cut at {end}: {refused}")
    lines = text.splitlines(keepends=True)
    for at in range(len(lines)):
        try:
            followed(b"".join(lines[:at] + lines[at + 1 :]))
        except Refused:
            pass
    return found


def damage_faults(seed, count):
    """What is wrong with damaged texts: each is refused in one line, or followed."""
    chance, text, found = random.Random(seed), whole_text(), []
    for _ in range(count):
        damaged = bytearray(text)
        for _ in range(chance.choice((1, 1, 2, 5))):
            at = chance.randrange(len(damaged))
            kind = chance.randrange(4)
            if kind == 0:
                damaged[at] = chance.choice(b'0123456789abcdefx\\"<>(){}[],= \n' + bytes([chance.randrange(256)]))
            elif kind == 1:
                del damaged[at : at + chance.randrange(1, 40)]
            elif kind == 2:
                damaged[at:at] = damaged[chance.randrange(len(damaged)) :][: chance.randrange(1, 60)]
            else:
                damaged[at:at] = chance.choice((b"99999999999999999999", b"-1", b"\x00", b'"', b"<unfinished ...>", b"/*"))
        try:
            entries_of(followed(bytes(damaged)))
        except Refused as refused:
            if "\n" in str(refused) or len(str(refused)) > 2000:
                found.append(f"a refusal of {len(str(refused))} characters: {str(refused)[:200]!r}")
        except Exception as error:
            found.append(f"{type(error).__name__}: {error}: {bytes(damaged)!r}"[:3000])
    return found


def model_fault(seed):
    """What is wrong with the entries of a random run on files: each image of the files is one of the log, and no other."""
    chance = random.Random(seed)
    sizes = [chance.randint(1, 2) for _ in range(chance.randint(1, 3))]
    made, plain, begun, value = disk.Disk(), files_model.Files(sizes), [], 0
    for _ in range(chance.randint(1, 9)):
        step, file = chance.choice("wwwwssbbeedm"), chance.randrange(len(sizes))
        first = chance.randrange(sizes[file])
        values = list(range(value + 1, value + 1 + chance.randint(1, sizes[file] - first)))
        files = [file] if chance.random() < 0.8 else list(range(len(sizes)))
        data = b"".join(bytes([it]) * SECTOR for it in values)
        if step in "wd":
            value = values[-1]
            made.write(file, first, data)
        if step == "w":
            plain.write(file, first, values)
        elif step == "d":
            made.force(file, first, data)
            plain.written_through(file, first, values)
        elif step == "s":
            made.end_sync(made.begin_sync(files))
            plain.synced(plain.seen(files))
        elif step == "b":
            begun.append((made.begin_sync(files), plain.seen(files)))
        elif step == "e" and begun:
            one, other = begun.pop(chance.randrange(len(begun)))
            made.end_sync(one)
            plain.synced(other)
        elif step == "m":
            made.mark(b"")
            plain.mark()
    names = {disk.WRITE: "write", disk.FLUSH: "flush", disk.FUA: "fua", disk.MARK: "mark"}
    entries = [(names[it.kind], it.file, it.sector, [it.data[SECTOR * at] for at in range(it.count)]) for it in made.entries]
    found = files_model.log_leaves(entries, sizes)
    if found == plain.left:
        return None
    return f"run {seed}: {len(plain.left - found)} images are missing, {len(found - plain.left)} impossible: {entries}"


MAP = "crashbpf files 1\nsectors 16\nfirst 0 sectors 2 length 700 name db\nfirst 8 sectors 1 length 512 name in/a\\x20b\nend\n"
# What is wrong with a map, and the line of it.
MAPS = [
    ("", "1:"),
    ("crashbpf files 2\n", "1:"),
    (MAP[:-1], "5:"),
    (MAP.replace("end\n", ""), "5:"),
    (MAP.replace("first 8", "first 1"), "4:"),
    (MAP.replace("first 8", "first 16"), "4:"),
    (MAP.replace("length 700", "length 512"), "3:"),
    (MAP.replace("length 700", "length 1025"), "3:"),
    (MAP.replace("in/a", "../a"), "4:"),
    (MAP.replace("in/a", "/a"), "4:"),
    (MAP.replace("name db", "name in/a\\x20b"), "4:"),
    (MAP.replace("name db", "name d\\x00b"), "3:"),
    (MAP.replace("name db", "name d b"), "3:"),
    (MAP.replace("sectors 2", "sectors 99999999"), "3:"),
]


def map_faults():
    """What is wrong with maps that are read, and with how they are refused."""
    wanted = [layout.Place(b"db", 0, 2, 700), layout.Place(b"in/a b", 8, 1, 512)]
    found = [] if layout.read_map(MAP) == (wanted, 16) else ["the map is read as another"]
    found += [] if layout.places({b"in/a b": 512, b"db": 700}) == (wanted, 16) else ["the files lie elsewhere"]
    found += [] if layout.map_text(wanted, 16) == MAP else ["the map is written as another"]
    for text, says in MAPS:
        try:
            found.append(f"a map isn't refused: {text!r}: {layout.read_map(text)}")
        except Refused as refused:
            found += [] if str(refused).startswith(says) else [f"a map is refused so: {text!r}: {refused}"]
    return found


def log_fault():
    """What is wrong with the bytes of a log."""
    file = object()
    made = disk.Disk()
    made.write(file, 1, A + B)
    made.force(file, 1, A + B)
    made.mark(b"one")
    made.end_sync(made.begin_sync([file]))
    parts, large = layout.log_of(made.entries, {file: 8}, 16)
    wanted = log([S(9, A + B), S(9, A + B, FUA), M("one"), F])
    # (of a guest's log the mark at its end is taken off)
    ended = log([S(9, A + B), S(9, A + B, FUA), M("one"), F, M("dm-log-writes-end")])
    good = (b"".join(parts), large) == (wanted, False) and guest.without_end(ended) == (wanted, 1, 4)
    return None if good else "the log has other bytes"


def run_files(folder, *words, **surroundings):
    """Runs crashbpf-files, in surroundings of its own. Returns its status, and what it printed."""
    command, surroundings = [sys.executable, RECORD / "crashbpf-files", *words], {**os.environ, **surroundings}
    done = subprocess.run(command, capture_output=True, text=True, cwd=folder, env=surroundings)
    return done.returncode, done.stdout, done.stderr


def files_faults():
    """What is wrong with crashbpf-files: the files of an image, its statuses, and what it refuses."""
    found, before = [], set(os.listdir(tempfile.gettempdir()))
    with tempfile.TemporaryDirectory() as folder:
        image, text = Path(folder, "image"), Path(folder, "files.txt")
        image.write_bytes(A + B[:200] + bytes(SECTOR - 200) + bytes(SECTOR * 6) + C + bytes(SECTOR * 7))
        text.write_text(MAP)
        show = 'ls -R; cat db "in/a b"; [ "$PWD" = "$FILES" ]; exit 7'

        listed = ".:\ndb\nin\n\n./in:\na b\n" + (A + B[:188]).decode() + C.decode()
        rows = [
            ((text, image, "--", "sh", "-c", show), 7, listed, ""),
            ((text, image, "--", "sh", "-c", "kill -9 $$"), 137, "", ""),
            ((text, image, "--", "/no/program"), 2, "", "crashbpf-files: /no/program: No such file or directory\n"),
            ((text, image, "--"), 2, "", "usage: crashbpf-files MAP IMAGE -- PROGRAM [WORD ..]\n"),
            ((image, text, "--", "true"), 2, "", f"crashbpf-files: {image}:1: it is no map of files\n"),
            ((text, text, "--", "true"), 2, "", f"crashbpf-files: {text}: it has {len(MAP)} bytes, and the map is of 8192\n"),
            ((text, folder + "/no", "--", "true"), 2, "", f"crashbpf-files: {folder}/no: No such file or directory\n"),
        ]
        for words, *wanted in rows:
            done = run_files(folder, *words)
            found += [] if list(done) == wanted else [f"crashbpf-files {words[2:]}: {done}"]
        left = [it for it in os.listdir(tempfile.gettempdir()) if it.startswith("crashbpf-files.") and it not in before]
    return found + [f"{it} is left" for it in left]


# The tools of file systems stand where no user's path leads.
SBIN = {**os.environ, "PATH": systems.PATH}
# What a map of a file system has, and texts that are none.
SYSTEM = "crashbpf files of a file system 1\nsystem ext4\nsectors 16384\nfolder files\nend\n"
MACHINE_SYSTEM = SYSTEM.replace("ext4", "xfs").replace("end\n", "machine tcg\nend\n")
NO_SYSTEM = (SYSTEM.replace("ext4", "ext9"), SYSTEM.replace("ext4", "xfs"), SYSTEM.replace("end\n", "machine tcg\nend\n"), MACHINE_SYSTEM.replace("tcg", "xen"), SYSTEM.replace("16384", "x"), SYSTEM.replace("folder files", "folder ../files"), SYSTEM[:-4], SYSTEM + "end\n")


def debugged(image, *lines):
    """Has debugfs do some lines to an image. Returns what it prints."""
    script = "".join(f"{it}\n" for it in lines)
    return subprocess.run(["debugfs", "-w", "-f", "-", image], input=script, capture_output=True, text=True, env=SBIN).stdout


def system_faults():
    """What is wrong with crashbpf-files on an image of ext4: what the journal alone has counts, and so does a file that no other tool made."""
    found = [f"a map is read: {it!r}" for it in NO_SYSTEM if refusal_of(systems.read_map, it) is None]
    lacks = [it for it in ("mke2fs", "debugfs", "e2fsck") if shutil.which(it, path=SBIN["PATH"]) is None]
    if lacks:
        print(f"not run: the files of an image of ext4, since there is no {', '.join(lacks)} (Debian: e2fsprogs)")
        return found
    with tempfile.TemporaryDirectory() as folder:
        base, block, text = Path(folder, "base"), Path(folder, "block"), Path(folder, "files.txt")
        (base / "in").mkdir(parents=True)
        (base / "in/a b").write_bytes(b"a" * 5000)
        (base / "db").write_bytes(b"A" * 4096)
        (base / "link").symlink_to("db")
        os.chmod(base / "in", 0o700)
        guest.lay_disk(folder, base, guest.Guest("", "ext4", 16384))
        image = Path(folder, guest.BASE)
        text.write_text(SYSTEM)
        block.write_bytes(b"B" * 4096)
        place = debugged(image, "blocks /files/db").split()[-1]
        # (a transaction that stands in the journal, and not in its place)
        debugged(image, "journal_open", f"journal_write -b {place} {block}", "journal_close")
        before = image.read_bytes()
        show = "ls -R; stat -c %a in; head -c 3 db; readlink link; wc -c <'in/a b'"
        done = run_files(folder, text, image, "--", "sh", "-c", show)
        wanted = (0, ".:\ndb\nin\nlink\n\n./in:\na b\n700\nBBBdb\n5000\n", "")
        found += [] if done == wanted else [f"crashbpf-files of ext4: {done}"]
        found += [] if image.read_bytes() == before and before.count(b"A" * 4096) else ["crashbpf-files of ext4: the image is another one, or had no journal to replay"]
        own = Path(shutil.copy(image, Path(folder, "image")))
        done = run_files(folder, text, own, "--", "sh", "-c", show, CRASH_SERVED=folder)
        found += [] if done == wanted and own.read_bytes() != before else [f"crashbpf-files of an ext4 that is served: {done}, or it was copied"]
        image.write_bytes(bytes(len(before)))
        status, printed, said = run_files(folder, text, image, "--", "true")
        found += [] if (status, printed) == (2, "") and re.fullmatch(rf"crashbpf-files: {re.escape(str(image))}: e2fsck ends with status 8: .*\n", said) else [f"crashbpf-files of no ext4: {status}, {said}"]
    return found


# In the place of QEMU: what is the machine's state is what it does. It says a part of a line first, and what is asked it has to be asked
# twice; it has to have its disks by their names, a comma twice.
QEMU = r"""#!/usr/bin/env python3
import io, os, sys, tarfile
words = sys.argv[1:]
image, archive = (it.removeprefix("file=").split(",format=raw,if=virtio,cache=unsafe")[0].replace(",,", ",") for it in words if it.startswith("file="))
state = words[words.index("-incoming") + 1]
if state != "exec:cat machine" or words[:2] != ["-accel", "tcg"] or not os.path.exists(image):
    sys.exit(f"qemu: {words}")
does = open("machine").read()
if does == "ends":
    sys.exit("qemu: no such accelerator")
asked = [sys.stdin.readline() for _ in range(2)]
if set(asked) != {"go take files now\n"}:
    sys.exit(f"qemu: {asked}")
print("begun", flush=True)
if does == "fails":
    print("mount: mounting /dev/vda on /mnt failed: Structure needs cleaning", flush=True)
    sys.exit(0)
with tarfile.open(archive, "w", format=tarfile.GNU_FORMAT) as file:
    def put(name, kind=tarfile.REGTYPE, content=b"", link=""):
        it = tarfile.TarInfo(name)
        it.type, it.size, it.linkname, it.mode = kind, len(content), link, 0o755 if kind == tarfile.DIRTYPE else 0o640
        file.addfile(it, io.BytesIO(content))
    put("./", tarfile.DIRTYPE)
    put("./in/", tarfile.DIRTYPE)
    put("./in/" + "a" * 200, content=open(image, "rb").read(4))
    put("./b\udcff", tarfile.LNKTYPE, link="./in/" + "a" * 200)
    put("./link", tarfile.SYMTYPE, link="/etc/../in")
    put("./fifo", tarfile.FIFOTYPE)
print("done" if does == "takes" else "", flush=True)
"""
SHOW = "stat -c '%h %a' b*; cat b*; readlink link; test -p fifo && ls | wc -l"
# What is printed of the files by what the machine does, or what is said.
MACHINES = {
    "takes": (0, "2 640\nfile/etc/../in\n4\n", ""),
    "fails": (2, "", "IMAGE: mount: mounting /dev/vda on /mnt failed: Structure needs cleaning"),
    "ends": (2, "", "IMAGE: qemu: no such accelerator"),
    "stops": (2, "", "IMAGE: the machine ends before its time"),
    "": (2, "", "ROOM/machine isn't there, the machine that mounts the images of the recording"),
}


def machine_faults():
    """What is wrong with crashbpf-files on an image that a machine mounts, with a script in the place of QEMU."""
    found = []
    with tempfile.TemporaryDirectory() as folder:
        room, bin_ = Path(folder, "a,b"), Path(folder, "bin")
        image, text, qemu = room / "image", room / "files.txt", bin_ / "qemu-system-x86_64"
        room.mkdir(), bin_.mkdir()
        image.write_bytes(b"file".ljust(16384 * 512, b"\0"))
        text.write_text(MACHINE_SYSTEM)
        qemu.write_text(QEMU)
        qemu.chmod(0o755)
        for does, (status, printed, said) in MACHINES.items():
            (room / "machine").write_text(does) if does else (room / "machine").unlink()
            said = f"crashbpf-files: {said}\n".replace("IMAGE", str(image)).replace("ROOM", str(room)) if said else ""
            done = run_files(folder, text, image, "--", "sh", "-c", SHOW, PATH=f"{bin_}:{os.environ['PATH']}")
            found += [] if done == (status, printed, said) else [f"crashbpf-files by a machine that {does or 'is gone'}: {done}"]
    return found


def refusal_of(act, *words):
    """Why something is refused, or nothing."""
    try:
        act(*words)
    except Refused as refused:
        return str(refused)
    return None


def crossed_faults():
    """What is wrong with what becomes of calls that were in flight where a sync of another one ended: their entries, or the note of them."""
    start = OPEN + WAL + THREAD + "write(4<wal>, 'A*512', 512) = 512\n"
    within, after = "101 pwrite64(3<db>, 'B*512', 512, 0 <unfinished ...>\n", "101 <... pwrite64 resumed>) = 512\n" + GONE
    through = "openat(AT_FDCWD</elsewhere>, 'x', O_RDWR|O_DSYNC) = 5<wal>\n"
    wal, db, none = ("w", "wal", 0, A), ("w", "db", 0, B), ("fua", "db", 0, bytes(512))
    more = ("w", "wal", 1, C)
    note = "calls were in flight where a sync ended (calls:7 pwrite64 at calls:8 fsync): that such a call has arrived, and what the sync was of is lost, isn't tested"
    over = "pwrite64(3<db>, 'C*512', 512, 0) = 512\n"
    opened, mark = start + "openat(AT_FDCWD</elsewhere>, 'm', O_WRONLY|O_APPEND) = 7</r/marks>\n", "write(7</r/marks>, '0 one@', 6"
    on, off = f"{mark} <unfinished ...>\n", "<... write resumed>) = 6\n"
    rows = [
        ("a write within which another thread syncs", start + within + "fsync(4<wal>) = 0\n" + after, [wal, db, ("f",), none, db], []),
        ("a write that ends within a sync", start + "fsync(4<wal> <unfinished ...>\n" + within + after.replace(GONE, "") + "<... fsync resumed>) = 0\n" + GONE, None, []),
        ("a sync that has nothing to do", start + "fsync(4<wal>) = 0\n" + within + "fsync(4<wal>) = 0\n" + after, [wal, ("f",), ("f",), db], []),
        ("a write that fails", start + within + "fsync(4<wal>) = 0\n" + after.replace("= 512", "= -1 EAGAIN (Resource temporarily unavailable)"), [wal, ("f",)], []),
        ("a sync within another", start + "101 fsync(4<wal> <unfinished ...>\nfdatasync(4<wal>) = 0\n101 <... fsync resumed>) = 0\n" + GONE, None, []),
        (
            "a write through O_DSYNC within a write",
            start.replace(THREAD, through + THREAD) + within + "pwrite64(5<wal>, 'C*512', 512, 512) = 512\n" + after,
            [wal, more, db, ("fua", *more[1:]), none, db],
            [],
        ),
        ("a mark after the sync", opened + within + "fsync(4<wal>) = 0\n" + f"{mark}) = 6\n" + after, [wal, db, ("f",), none, ("m", "one"), db], []),
        ("a mark that begins after the sync", opened + within + "fsync(4<wal>) = 0\n" + on + after.replace(GONE, "") + off + GONE, [wal, db, ("f",), none, ("m", "one"), db], []),
        (
            "a mark that begins before the sync ends",
            opened.replace(THREAD, THREAD + THREAD.replace("101", "102")) + within + "102 fsync(4<wal> <unfinished ...>\n" + on + "102 <... fsync resumed>) = 0\n" + after + off + GONE.replace("101", "102"),
            [wal, ("m", "one"), db, ("f",), none, db],
            [],
        ),
        ("a write over one in flight", start + over + within + "fsync(4<wal>) = 0\n" + after, None, [note.replace("calls:7", "calls:6").replace("calls:8", "calls:7")]),
    ]
    found = []
    for name, text, entries, notes in rows:
        made = followed(strace(text).replace(rb"\x40", rb"\x0a"))
        said = [it for it in made.notes if "in flight" in it]
        shown = [(*it[:3], it[3][:1]) if len(it) == 4 else it for it in entries_of(made)]
        found += [] if said == notes and entries in (None, entries_of(made)) else [f"{name}: {said} {shown}"]
    return found


def crossed_model_fault(seed, noted):
    """What is wrong with the entries of random calls of several threads. Each disk of the log has to be one that a crash leaves, and where no
    note says otherwise each of these is one of the log. `noted` takes in whether a run had that note, or was refused."""
    events = crossed_calls.chosen(random.Random(seed))
    try:
        made = followed(strace(crossed_calls.text_of(events)), crossed_calls.FILES)
    except Refused:
        noted.append("refused")
        return None
    has_note = any("in flight where a sync ended" in it for it in made.notes)
    noted.append("noted" if has_note else "whole")
    names, numbers, entries = {disk.WRITE: "write", disk.FLUSH: "flush", disk.FUA: "fua"}, {b"db": 0, b"wal": 1}, []
    for it in made.disk.entries:
        values = [it.data[SECTOR * at] - 64 for at in range(it.count)]
        entries.append((names[it.kind], numbers[it.file.name] if it.file else None, it.sector, values))
    found = {it for _, it in files_model.log_leaves(entries, [2, 2])}
    wanted = crossed_calls.left(events)
    if found <= wanted and (has_note or found == wanted):
        return None
    return f"run {seed}: {len(wanted - found)} disks are missing, {len(found - wanted)} impossible: {events} {entries}"


def crossed_model_faults(seed, count):
    """What is wrong in many such runs, of which most have to be compared whole."""
    noted = []
    found = [it for it in (crossed_model_fault(seed + turn, noted) for turn in range(count)) if it]
    return found + ([f"of {count} runs {noted}"] if count > 100 and noted.count("whole") < count // 2 else [])


def passed_faults():
    """Calls that are followed, and at which strace doesn't stop."""
    return [f"{it} is followed, and strace doesn't stop there" for names in known.KINDS.values() for it in names if it in traced.PASSED]


def main(words):
    seed, count = (int(it) for it in (*words, *("1", "3000")[len(words) :]))
    found = [row_fault(*it) for it in FOLLOWED] + [refused_fault(*it) for it in REFUSED] + [log_fault()]
    several = [passed_faults(), crossed_faults(), crossed_model_faults(seed, count // 6), source_faults(), cut_faults(), damage_faults(seed, count // 2), map_faults(), files_faults(), system_faults(), machine_faults()]
    several.append([it for it in (model_fault(seed + turn) for turn in range(count)) if it])
    wrong = [it for it in found if it] + [it for these in several for it in these]
    for line in wrong:
        print("FAILED", line)
    failed = sum(1 for it in found if it) + sum(1 for it in several if it)
    print(f"{len(found) + len(several) - failed} passed, {failed} failed")
    return 1 if failed else 0


if __name__ == "__main__":
    sys.exit(main(sys.argv[1:]))
