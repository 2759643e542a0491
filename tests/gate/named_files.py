#!/usr/bin/env python3
"""Tests what crashbpf-record --files makes of files with names and sizes: the tables of docs/RECORDING.md.

    python3 tests/gate/named_files.py [SEED COUNT]

It needs Python alone. Rows are strace's texts, one for each call and each table, with the entries and with what a crash may leave.
rows/file_calls.py has a row for each call and flag.
Random runs, COUNT by each table, are told as texts of strace, each step by one of the calls that do it (file_runs.py). They are compared with a plain model of the tables (named_model.py): each state of the files that the
model allows is one that an image of the log has, and no other. What a table allows the weaker ones allow too. Calls of several threads at once are compared with crossed_calls.py. `tests/by_hand/planted_calls.py` plants faults that these runs have to find.

Prints a line for each row that failed, and last `N passed, M failed`.
"""
import contextlib
import dataclasses
import io
import os
import random
import re
import struct
import subprocess
import sys
import tempfile
from pathlib import Path

sys.dont_write_bytecode = True

import rooms

rooms.enter()

import crossed_calls
import named_model
from file_runs import content_of, plan_of, text_of
from model import Run
from notation import SECTOR, TOP, Entry, entries_of
from rows.file_calls import CALLS
from strace_texts import FILES, HERE, MARKS, strace

RECORD = TOP / "commands/record"
from commands.record import disk
from commands.record import layout
from commands.record import logs
from commands.record import named_layout
from commands.record import told as told_entries
from commands.record import traced
from commands.record.calls import Refused
from commands.record.orders import FILE, FOLDER, OTHER, TABLES, Names, Size, Tree

KINDS = {disk.WRITE: "write", disk.FLUSH: "flush", disk.FUA: "fua", disk.MARK: "mark"}
# What stands before the number of what a name is of.
SIGNS = {FILE: "", FOLDER: "/", OTHER: "@"}
BY_TABLE = ("ordered", "writeback", "strict", "ext4", "xfs", "btrfs")
# What a table allows a weaker one allows too.
WEAKER = (("ordered", "writeback"), ("ext4", "writeback"), ("ext4", "xfs"), ("xfs", "writeback"), ("ordered", "strict"), ("xfs", "strict"), ("btrfs", "strict"))
# Of a file the first sectors of its first two blocks: by `writeback` runs are compared in these, since sectors have many versions.
LOOKED = frozenset({0, 8})


# The calls, by each table


def followed(text, table, before=None, folders=(), begun=0, pages=False):
    """What is followed of a text of strace. Raises Refused."""
    with tempfile.NamedTemporaryFile() as file:
        file.write(text)
        file.flush()
        return traced.follow_names(file.name, FILES, before or {}, folders, (), HERE, MARKS, table, begun, pages=pages)


def told(entry):
    """An entry in words: `names` and the slots that are taken, `size` or `bytes` and the number of a file, with what changes."""
    if entry.kind in (disk.FLUSH, disk.MARK):
        return KINDS[entry.kind]
    kind = {disk.WRITE: "", disk.FUA: "fua "}[entry.kind]
    if isinstance(entry.file, Names):
        state = entry.file.state(struct.unpack_from("<Q", entry.data)[0])
        slots = [f"{f'{folder}/' if folder else ''}{name.decode()}={SIGNS[it]}{number}" for (folder, name), (it, number) in state.items()]
        return kind + " ".join(["names", *sorted(slots)])
    if isinstance(entry.file, Size):
        size, room = struct.unpack_from("<QQ", entry.data)
        return f"{kind}size {entry.file.number} {size}" + (f" room {room}" if room else "")
    first = f"{entry.sector}" + (f"-{entry.sector + entry.count - 1}" if entry.count > 1 else "")
    return f"{kind}bytes {first}"


OPEN = "openat(AT_FDCWD</elsewhere>, '/r/files/a', O_RDWR|O_CREAT, 0644) = 3<a>\n"
AGAIN = OPEN.replace("|O_CREAT, 0644", "")
B = "openat(AT_FDCWD</elsewhere>, '/r/files/b', O_RDWR|O_CREAT, 0644) = 4<b>\n"
TOP_FOLDER = "openat(AT_FDCWD</elsewhere>, '/r/files', O_RDONLY|O_DIRECTORY) = 9</r/files>\n"
IN = "mkdir('/r/files/in', 0777) = 0\n"
WRITE = "write(3<a>, 'A*512', 512) = 512\n"
THREAD = "clone(child_stack=0x7f, flags=CLONE_VM|CLONE_FILES|CLONE_THREAD) = 101\n"
READ = "openat(AT_FDCWD</elsewhere>, '/r/files/a', O_RDONLY <unfinished ...>\n"
TWO_AT_ONCE = THREAD + "openat(AT_FDCWD</elsewhere>, '/r/files/b', O_RDWR|O_CREAT, 0644 <unfinished ...>\n101 " + OPEN + "<... openat resumed>) = 4<b>\n101 +++ exited with 0 +++\n"
SWAPPED = "renameat2(AT_FDCWD</r/files>, 'a', AT_FDCWD</r/files>, 'b', RENAME_EXCHANGE) = 0\n"
SYNCED = OPEN + WRITE + TOP_FOLDER + "fsync(9</r/files>) = 0\nfsync(3<a>) = 0\n"
MADE = ["names a=0"]
# The bytes that are written after the unlink are seen only where it is lost.
REST = ["fua names a=0", "flush", "names", "bytes 0", "flush", "flush"]



def by_cut(cut, uncut):
    """Entries by tables that have zeros after the end of a file that gets shorter, and by those by which these may be lost."""
    return cut, uncut, None, cut, None, uncut


# The name, the text, the entries by `ordered`, `writeback`, `strict`, `ext4` and `btrfs`, or by all of them where they are the same; what
# stood there before. Where there are fewer `ext4` has those of `writeback`, and `btrfs` those of `strict`; `xfs` has those of `ext4`, where a
# last list doesn't have its own.
# By `writeback` they are those without blocks that are used again.
ROWS = [
    ("a file is made", OPEN, MADE),
    ("creat", "creat('/r/files/a', 0644) = 3<a>", MADE),
    ("a file that is there", AGAIN, [], {b"a": b"x"}),
    ("an append in a new block", OPEN + WRITE, [*MADE, "fua bytes 0", "size 0 512"], [*MADE, "bytes 0", "size 0 512"]),
    ("an append in a block that is there", OPEN + WRITE * 2, [*MADE, "fua bytes 0", "size 0 512", "bytes 1", "size 0 1024"], [*MADE, "bytes 0", "size 0 512", "bytes 1", "size 0 1024"]),
    ("an append over the end of a block", AGAIN + "pwrite64(3<a>, 'A*1000', 1000, 3600) = 1000", ["bytes 7", "fua bytes 8", "size 0 4096", "size 0 4600"], ["bytes 7-8", "size 0 4096", "size 0 4600"], {b"a": b"x" * 3600}),
    ("an append of many blocks", OPEN + "write(3<a>, 'A*8200', 8200) = 8200", [*MADE, "fua bytes 0-16", "size 0 4096", "size 0 8192", "size 0 8200"], [*MADE, "bytes 0-16", "size 0 4096", "size 0 8192", "size 0 8200"]),
    ("a write over what is there", AGAIN + WRITE, ["bytes 0"], {b"a": b"x" * 600}),
    ("a write far after the end", OPEN + "pwrite64(3<a>, 'A*512', 512, 8192) = 512\npwrite64(3<a>, 'A*512', 512, 0) = 512", [*MADE, "fua bytes 16", "size 0 4096", "size 0 8192", "size 0 8704", "bytes 0"], [*MADE, "bytes 16", "size 0 4096", "size 0 8192", "size 0 8704", "bytes 0"]),
    ("ftruncate makes it longer", OPEN + "ftruncate(3<a>, 5000) = 0\n" + WRITE, [*MADE, "size 0 5000", "bytes 0"]),
    ("ftruncate makes it shorter", AGAIN + "ftruncate(3<a>, 100) = 0\n", *by_cut(["bytes 0", "bytes 1", "size 0 100 room 1"], ["bytes 0", "bytes 1", "bytes 0-7", "size 0 100 room 1"]), {b"a": b"x" * 600}),
    ("shorter, with a write in flight", AGAIN + WRITE + "ftruncate(3<a>, 100) = 0\n", *by_cut(["bytes 0", "bytes 0", "bytes 1", "bytes 0", "size 0 100 room 1"], ["bytes 0", "bytes 0", "bytes 1", "bytes 0", "bytes 0", "bytes 0-7", "size 0 100 room 1"]), {b"a": b"x" * 600}),
    ("shorter, and written after that", AGAIN + "ftruncate(3<a>, 100) = 0\n" + WRITE, *by_cut(["bytes 0", "bytes 1", "size 0 100 room 1", "bytes 0", "bytes 0", "size 0 512 room 1"], ["bytes 0", "bytes 1", "bytes 0-7", "size 0 100 room 1", "bytes 0", "bytes 0", "size 0 512 room 1"]), {b"a": b"x" * 600}),
    ("truncate by the name", AGAIN + "truncate('/r/files/a', 0) = 0\n" + WRITE, ["size 0 0 room 1", "fua bytes 0", "size 0 512 room 1"], ["size 0 0 room 1", "bytes 0", "size 0 512 room 1"], {b"a": b"x" * 600}),
    ("O_TRUNC", AGAIN.replace("O_RDWR", "O_RDWR|O_TRUNC"), ["size 0 0 room 1"], {b"a": b"x" * 600}),
    ("fallocate", OPEN + "fallocate(3<a>, 0, 0, 8192) = 0\n" + WRITE, [*MADE, "size 0 4096", "size 0 8192", "bytes 0"]),
    ("blocks before the size", OPEN + "fallocate(3<a>, FALLOC_FL_KEEP_SIZE, 0, 4096) = 0\n" + WRITE, [*MADE, "bytes 0", "size 0 512"]),
    ("a hole", AGAIN + "fallocate(3<a>, FALLOC_FL_KEEP_SIZE|FALLOC_FL_PUNCH_HOLE, 0, 512) = 0", ["bytes 0"], {b"a": b"x" * 600}),
    ("O_DSYNC", AGAIN.replace("O_RDWR", "O_RDWR|O_DSYNC") + WRITE + "lseek(3<a>, 0, SEEK_END) = 600\n" + WRITE, ["bytes 0", "flush", "bytes 1-2", "size 0 1112", "flush"], {b"a": b"x" * 600}),
    ("unlink", OPEN + "unlink('/r/files/a') = 0", ["names a=0", "names"]),
    ("unlinkat", OPEN + "unlinkat(9</r/files>, 'a', 0) = 0", ["names a=0", "names"]),
    ("a write after an unlink", SYNCED + "unlink('/r/files/a') = 0\npwrite64(3<a>(deleted), 'B*512', 512, 0) = 512\nfsync(9</r/files>) = 0\npwrite64(3<a>(deleted), 'C*512', 512, 0) = 512\nfsync(3<a>(deleted)) = 0", [*MADE, "fua bytes 0", "size 0 512", *REST], [*MADE, "bytes 0", "size 0 512", *REST]),
    ("rename", OPEN + "rename('/r/files/a', '/r/files/b') = 0", ["names a=0", "names b=0"]),
    ("rename over a file", OPEN + B + "rename('/r/files/a', '/r/files/b') = 0\npwrite64(3<b>, 'A*512', 512, 4096) = 512", [*MADE, "names a=0 b=1", "names b=0", "fua bytes 8", "size 0 4096", "size 0 4608"], [*MADE, "names a=0 b=1", "names b=0", "bytes 8", "size 0 4096", "size 0 4608"], [*MADE, "names b=1", "names a=0 b=1", "names b=0", "bytes 8", "size 0 4096", "size 0 4608"]),
    ("rename of a name to itself", OPEN + "rename('/r/files/a', '/r/files/a') = 0", MADE),
    ("rename to another folder", OPEN + IN + "renameat(AT_FDCWD</r/files>, 'a', 9<in>, 'b') = 0", *[[*MADE, "names a=0 in=/1", "names 1/b=0 in=/1"]] * 2, ["names a=0", "names in=/1", "names 1/b=0"]),
    ("renameat2", OPEN + B + SWAPPED, *[[*MADE, "names a=0 b=1", "names a=1 b=0"]] * 2, [*MADE, "names b=1", "names a=0 b=1", "names a=1 b=0"]),
    ("a folder gets another name", IN + OPEN.replace("files/a", "files/in/a").replace("<a>", "<in/a>") + "rename('/r/files/in', '/r/files/out') = 0\nwrite(3<out/a>, 'A*512', 512) = 512", ["names in=/1", "names 1/a=0 in=/1", "names 1/a=0 out=/1", "fua bytes 0", "size 0 512"], ["names in=/1", "names 1/a=0 in=/1", "names 1/a=0 out=/1", "bytes 0", "size 0 512"], ["names in=/1", "names 1/a=0", "names out=/1", "bytes 0", "size 0 512"]),
    ("fsync after a rename", OPEN + "rename('/r/files/a', '/r/files/b') = 0\nfsync(3<b>) = 0", *[[*MADE, "names b=0", "fua names a=0"]] * 2, [*MADE, "names b=0"], *[[*MADE, "names b=0", "flush"]] * 2),
    # (xfs changes neither of two files whose names are exchanged)
    ("fsync after an exchange", OPEN + B + SWAPPED + "fsync(3<b>) = 0", *[[*MADE, "names a=0 b=1", "names a=1 b=0", "fua names a=0"]] * 2, [*MADE, "names b=1", "names a=0 b=1", "names a=1 b=0", "names b=0", "names a=1 b=0"], [*MADE, "names a=0 b=1", "names a=1 b=0", "flush"], None, [*MADE, "names a=0 b=1", "names a=1 b=0", "fua names a=0"]),
    ("fdatasync after a rename", OPEN + "rename('/r/files/a', '/r/files/b') = 0\nfdatasync(3<b>) = 0", *[[*MADE, "names b=0", "fua names a=0"]] * 2, [*MADE, "names b=0"]),
    ("fsync after a rename of another file", OPEN + "fsync(3<a>) = 0\n" + B + "rename('/r/files/b', '/r/files/c') = 0\nfsync(3<a>) = 0", *[[*MADE, "flush", "names a=0 b=1", "names a=0 c=1"]] * 2, [*MADE, "names b=1", "names c=1"], [*MADE, "flush", "names a=0 b=1", "names a=0 c=1"], [*MADE, "flush", "names b=1", "names c=1"]),
    # (btrfs logs no file without a name, and a crash may give this one its name back)
    ("fsync of a file without a name", AGAIN + WRITE + "unlink('/r/files/a') = 0\nfsync(3<a>(deleted)) = 0", *[["bytes 0", "names", "fua bytes 0"]] * 2, ["bytes 0", "names"], ["bytes 0", "names", "flush"], {b"a": b"x" * 600}),
    ("link", OPEN + "link('/r/files/a', '/r/files/b') = 0\nunlink('/r/files/a') = 0\n" + "fsync(3<a>(deleted)) = 0", *[[*MADE, "names a=0 b=0", "names b=0", "fua names a=0"]] * 2, [*MADE, "names b=0", "names"], [*MADE, "names a=0 b=0", "names b=0", "flush"], [*MADE, "names b=0", "names", "fua names b=0"]),
    ("a symbolic link", OPEN + "symlink('a', '/r/files/b') = 0\nrename('/r/files/b', '/r/files/c') = 0\nunlink('/r/files/c') = 0", *[[*MADE, "names a=0 b=@0", "names a=0 c=@0", "names a=0"]] * 2, [*MADE, "names b=@0", "names c=@0", "names"]),
    ("a path through a link", IN + "symlinkat('in', AT_FDCWD</r/files>, 'l') = 0\n" + OPEN.replace("<a>", "<in/a>") + "rename('/r/files/l/a', '/r/files/b') = 0", *[["names in=/1", "names in=/1 l=@0", "names 1/a=0 in=/1 l=@0", "names b=0 in=/1 l=@0"]] * 2, ["names in=/1", "names l=@0", "names 1/a=0", "names b=0"]),
    ("a path through a link that was replaced", IN + "symlink('/elsewhere', '/r/files/l') = 0\nunlink('/r/files/l') = 0\nsymlink('/r/files/in', '/r/files/l') = 0\nmkdir('/r/files/l/x', 0777) = 0", *[["names in=/1", "names in=/1 l=@0", "names in=/1", "names in=/1 l=@1", "names 1/x=/2 in=/1 l=@1"]] * 2, ["names in=/1", "names l=@0", "names", "names l=@1", "names 1/x=/2"]),
    ("one more name of a link", "symlink('a', '/r/files/b') = 0\nlink('/r/files/b', '/r/files/c') = 0", *[["names b=@0", "names b=@0 c=@0"]] * 2, ["names b=@0", "names c=@0"]),
    ("a FIFO and a socket", "mknodat(AT_FDCWD</r/files>, 'a', S_IFIFO|0600) = 0\nopenat(AT_FDCWD</elsewhere>, '/r/files/a', O_RDWR) = 3<a>\nwrite(3<a>, 'A*512', 512) = 512\nbind(4<socket:[1]>, {sa_family=AF_UNIX, sun_path='/r/files/b'}, 110) = 0\nunlink('/r/files/b') = 0\nbind(5<socket:[2]>, {sa_family=AF_UNIX, sun_path='elsewhere'}, 110) = 0", *[["names a=@0", "names a=@0 b=@1", "names a=@0"]] * 2, ["names a=@0", "names b=@1", "names"]),
    ("two that make files at once", TWO_AT_ONCE, *[["names a=0", "names b=1", "names a=0 b=1"]] * 2, ["names a=0", "names b=1"]),
    ("two at once, of which one is durable first", "openat(AT_FDCWD</elsewhere>, '/r/files/c', O_RDWR|O_CREAT, 0644) = 5<c>\n" + THREAD + "unlink('/r/files/c' <unfinished ...>\n101 " + OPEN + "101 fsync(3<a>) = 0\n<... unlink resumed>) = 0\n101 +++ exited with 0 +++", *[["names c=0", "names a=1 c=0", "flush", "names a=1"]] * 2, ["names c=0", "names a=1", "names"], None, ["names c=0", "names a=1", "fua names a=1", "names"]),
    ("a file by mknod", "mknod('/r/files/a', S_IFREG|0600) = 0", MADE),
    ("a long name", OPEN.replace("files/a", "files/" + "n" * 255).replace("<a>", "<" + "n" * 255 + ">"), ["names " + "n" * 255 + "=0"]),
    ("mkdir and rmdir", IN + "rmdir('/r/files/in') = 0", ["names in=/1", "names"]),
    ("unlinkat of a folder", IN + "unlinkat(9</r/files>, 'in', AT_REMOVEDIR) = 0", ["names in=/1", "names"]),
    ("fsync of a new file", OPEN + WRITE + "fsync(3<a>) = 0", [*MADE, "fua bytes 0", "size 0 512", "flush"], [*MADE, "bytes 0", "size 0 512", "flush"], [*MADE, "bytes 0", "size 0 512", "fua bytes 0", "fua size 0 512"], None, [*MADE, "bytes 0", "size 0 512", "flush"]),
    ("fdatasync", AGAIN + WRITE + "lseek(3<a>, 0, SEEK_END) = 600\n" + WRITE + "fdatasync(3<a>) = 0", ["bytes 0", "bytes 1-2", "size 0 1112", "flush"], {b"a": b"x" * 600}),
    ("fsync of the folder", OPEN + TOP_FOLDER + "fsync(9</r/files>) = 0", [*MADE, "flush"]),
    ("fsync of the folder alone", OPEN + WRITE + TOP_FOLDER + "fsync(9</r/files>) = 0", [*MADE, "fua bytes 0", "size 0 512", "fua names a=0"], [*MADE, "bytes 0", "size 0 512", "fua names a=0"]),
    ("fsync of another folder", IN + OPEN + "openat(AT_FDCWD</elsewhere>, '/r/files/in', O_RDONLY|O_DIRECTORY) = 9<in>\nfsync(9<in>) = 0", *[["names in=/1", "names a=0 in=/1", "fua names in=/1"]] * 2, ["names in=/1", "names a=0"]),
    ("fsync of a file, and names after it", OPEN + WRITE + B + "fsync(3<a>) = 0", [*MADE, "fua bytes 0", "size 0 512", "names a=0 b=1", "fua size 0 512", "fua names a=0"], [*MADE, "bytes 0", "size 0 512", "names a=0 b=1", "fua bytes 0", "fua size 0 512", "fua names a=0"], [*MADE, "bytes 0", "size 0 512", "names b=1", "fua bytes 0", "fua size 0 512"], None, [*MADE, "bytes 0", "size 0 512", "names b=1", "fua bytes 0", "fua size 0 512", "fua names a=0"]),
    ("sync", OPEN + WRITE + "sync() = 0", [*MADE, "fua bytes 0", "size 0 512", "flush"], [*MADE, "bytes 0", "size 0 512", "flush"]),
    ("syncfs", OPEN + "syncfs(3<a>) = 0", [*MADE, "flush"]),
    ("replaced by rename, without fsync of the folder", AGAIN + B + "write(4<b>, 'B*512', 512) = 512\nfsync(4<b>) = 0\nrename('/r/files/b', '/r/files/a') = 0", ["names a=0 b=1", "fua bytes 0", "size 1 512", "flush", "names a=1"], ["names a=0 b=1", "bytes 0", "size 1 512", "flush", "names a=1"], ["names a=0 b=1", "bytes 0", "size 1 512", "fua bytes 0", "fua size 1 512", "names a=1"], None, ["names a=0 b=1", "bytes 0", "size 1 512", "flush", "names a=1"], {b"a": b"x"}),
    # (another file may be gone that had the name before, unless it was synced itself and that has names durable)
    ("fsync of a file whose name another had", OPEN + "rename('/r/files/a', '/r/files/c') = 0\n" + OPEN.replace("= 3", "= 5") + "fsync(5<a>) = 0", *[[*MADE, "names c=0", "names a=1 c=0", "flush"]] * 2, [*MADE, "names c=0", "names a=1 c=0", "names a=1", "names a=1 c=0"]),
    ("fsync of a file whose name another had that was synced", OPEN + "fsync(3<a>) = 0\nunlink('/r/files/a') = 0\n" + OPEN.replace("= 3", "= 5") + "fsync(5<a>) = 0", *[[*MADE, "flush", "names", "names a=1", "flush"]] * 2, [*MADE, "names", "names a=1"], None, [*MADE, "flush", "names", "names a=1", "flush"]),
    # (it isn't known of which file the descriptor is)
    ("fsync by a descriptor that was opened at once with a rename", OPEN + B + THREAD + READ + "101 rename('/r/files/b', '/r/files/a') = 0\n<... openat resumed>) = 5<a>\nfsync(5<a>) = 0\n101 +++ exited with 0 +++", *[[*MADE, "names a=0 b=1", "names a=1"]] * 2, [*MADE, "names b=1", "names a=0 b=1", "names a=1"]),
    ("fsync by a descriptor that was opened within a rename", OPEN + B + THREAD + "101 rename('/r/files/b', '/r/files/a' <unfinished ...>\n" + READ.replace(" <unfinished ...>", ") = 5<a>") + "101 <... rename resumed>) = 0\nfsync(5<a>) = 0\n101 +++ exited with 0 +++", *[[*MADE, "names a=0 b=1", "names a=1"]] * 2, [*MADE, "names b=1", "names a=0 b=1", "names a=1"]),
    ("fsync of a file in a new folder", IN + OPEN.replace("files/a", "files/in/a").replace("<a>", "<in/a>") + "rename('/r/files/in', '/r/files/out') = 0\nfsync(3<out/a>) = 0", *[["names in=/1", "names 1/a=0 in=/1", "names 1/a=0 out=/1", "fua names 1/a=0 in=/1"]] * 2, ["names in=/1", "names 1/a=0", "names out=/1"], None, ["names in=/1", "names 1/a=0", "names out=/1", "fua names 1/a=0", "fua names in=/1", "names out=/1"]),
]

# By `writeback`, what is written to which file: of a block that is used again what it held comes first, and who had it shows what is written
# to it, and after that what it has. The name, the text, the entries of bytes with the number of the file, the first sector, and of each
# block the first byte of its first sector; what was there before.
TWO = {b"a": b"a" * 5000, b"b": b"b" * 700}
AGAIN_ROWS = [
    ("a new block of which nobody had one", OPEN + WRITE, "0@0 b; 0@0 A"),
    ("a block that is there", AGAIN + WRITE + WRITE, "0@0 A; 0@1 A", {b"a": b"x" * 600}),
    ("the rest of a block that is there", AGAIN + "pwrite64(3<a>, 'A*4096', 4096, 512) = 4096", "0@8 b; 0@1 AA", {b"a": b"x" * 600}),
    ("an unlink, and a new file", OPEN.replace("files/a", "files/c").replace("<a>", "<c>") + "unlink('/r/files/a') = 0\npwrite64(3<c>, 'C*9000', 9000, 0) = 9000", "2@0 aab; 2@0 CCC; 0@0 CC; 0@0 aa", TWO),
    ("a rename over a file, and a new file of one block", "rename('/r/files/b', '/r/files/a') = 0\n" + OPEN.replace("files/a", "files/c").replace("<a>", "<c>") + "pwrite64(3<c>, 'C*100', 100, 0) = 100\npwrite64(3<c>, 'D*100', 100, 100) = 100", "2@0 a; 2@0 C; 0@0 C; 0@0 a; 2@0 C; 0@0 C; 0@0 a", TWO),
    ("a block at another place", OPEN.replace("files/a", "files/c").replace("<a>", "<c>") + "unlink('/r/files/b') = 0\npwrite64(3<c>, 'C*100', 100, 8192) = 100", "2@16 b; 2@16 C; 1@0 C; 1@0 b", TWO),
    ("a block of the file that is gone last", "unlink('/r/files/b') = 0\nunlink('/r/files/a') = 0\n" + OPEN.replace("files/a", "files/c").replace("<a>", "<c>") + "pwrite64(3<c>, 'C*100', 100, 0) = 100", "2@0 a; 2@0 C; 0@0 C; 0@0 a", TWO),
    ("a block that two had before", "unlink('/r/files/b') = 0\n" + OPEN.replace("files/a", "files/c").replace("<a>", "<c>") + "pwrite64(3<c>, 'C*100', 100, 0) = 100\nunlink('/r/files/c') = 0\n" + OPEN.replace("files/a", "files/d").replace("3<a>", "4<d>") + "pwrite64(4<d>, 'D*100', 100, 0) = 100", "2@0 b; 2@0 C; 1@0 C; 1@0 b; 3@0 C; 3@0 D; 1@0 D; 2@0 D; 1@0 b; 2@0 C", TWO),
    ("O_TRUNC, and other bytes", AGAIN.replace("O_RDWR", "O_RDWR|O_TRUNC") + "pwrite64(3<a>, 'A*100', 100, 0) = 100", "0@0 a; 0@0 A; 0@0 A; 0@0 a", TWO),
    ("blocks that are reserved", OPEN.replace("files/a", "files/c").replace("<a>", "<c>") + "fallocate(3<c>, 0, 0, 8192) = 0\nunlink('/r/files/b') = 0\npwrite64(3<c>, 'C*100', 100, 0) = 100", "2@0 C; 1@0 C; 1@0 b", TWO),
    ("nothing of a file that is gone durably", TOP_FOLDER + "unlink('/r/files/b') = 0\nfsync(9</r/files>) = 0\n" + OPEN.replace("files/a", "files/c").replace("<a>", "<c>") + "pwrite64(3<c>, 'C*100', 100, 0) = 100", "2@0 b; 2@0 C", TWO),
]

# The name, the text, and what is said, with the line of the text that shows it.
REFUSED = [
    ("a rename out of the folder", OPEN + "rename('/r/files/a', '/elsewhere/a') = 0", "calls:2: .*a goes where nothing is recorded"),
    ("a rename into the folder", "rename('/elsewhere/a', '/r/files/a') = 0", "calls:1: .*what comes here from outside isn't known"),
    ("a whiteout", OPEN + "renameat2(AT_FDCWD</r/files>, 'a', AT_FDCWD</r/files>, 'b', RENAME_WHITEOUT) = 0", "calls:2: .*its flags aren't known"),
    ("a rename of a file that nobody made", "rename('/r/files/a', '/r/files/b') = 0", "calls:1: .*no call was seen that made a"),
    ("an unlink of a file that nobody made", "unlink('/r/files/a') = 0", "calls:1: .*no call was seen that made a"),
    ("a folder that nobody made", OPEN.replace("files/a", "files/in/a").replace("<a>", "<in/a>"), "calls:1: .*no call was seen that made the folder in"),
    ("a link from outside", "link('/elsewhere/x', '/r/files/a') = 0", "calls:1: .*what comes here from outside isn't known"),
    ("a link to outside", OPEN + "link('/r/files/a', '/elsewhere/x') = 0", "calls:2: .*a gets another name"),
    ("a symbolic link from outside", OPEN + "symlink('/r/files/a', '/elsewhere/x') = 0", "calls:2: .*another name"),
    ("links that lead nowhere", "symlink('l', '/r/files/l') = 0\nunlink('/r/files/l/a') = 0", "calls:2: .*leads through more than 40 links"),
    ("a device", "mknod('/r/files/a', S_IFCHR|0666, makedev(0x1, 0x3)) = 0", "calls:1: .*such a file isn't followed"),
    ("two changes of a name at once", OPEN + THREAD + "rename('/r/files/a', '/r/files/y' <unfinished ...>\n101 unlink('/r/files/y') = -1 ENOENT (No such file or directory)\n101 link('/r/files/a', '/r/files/x') = 0\n<... rename resumed>) = 0\n101 +++ exited with 0 +++", "calls:3: .*another call changed names at once.*another try may pass: calls:5: 101 link"),
    ("a folder that goes while something is made in it", IN + THREAD + "openat(AT_FDCWD</elsewhere>, '/r/files/in/a', O_RDWR|O_CREAT, 0644 <unfinished ...>\n101 rename('/r/files/in', '/r/files/out') = 0\n<... openat resumed>) = 4<in/a>\n101 +++ exited with 0 +++", "calls:3: .*(no call was seen that made the folder in|another call changed names at once)"),
    ("a symbolic link at once", THREAD + "openat(AT_FDCWD</elsewhere>, '/r/files/b', O_RDWR|O_CREAT, 0644 <unfinished ...>\n101 symlink('x', '/r/files/a') = 0\n<... openat resumed>) = 4<b>\n101 +++ exited with 0 +++", "calls:2: .*another call changed names at once"),
    ("two that make a file longer at once", OPEN + THREAD + "pwrite64(3<a>, 'A*512', 512, 0 <unfinished ...>\n101 pwrite64(3<a>, 'B*512', 512, 4096) = 512\n<... pwrite64 resumed>) = 512\n101 +++ exited with 0 +++", None),
    ("two that write past the end at once", OPEN + THREAD + "pwrite64(3<a>, 'A*512', 512, 8192 <unfinished ...>\n101 pwrite64(3<a>, 'B*512', 512, 4096) = 512\n<... pwrite64 resumed>) = 512\n101 +++ exited with 0 +++", "calls:3: .*moved the end at once"),
    ("fsync that fails", SYNCED + "sync() = 0\nfsync(3<a>) = -1 EIO (Input/output error)", None),
    ("fsync that fails with bytes in flight", OPEN + WRITE + "fsync(3<a>) = -1 EIO (Input/output error)", "calls:3: .*a sync that fails"),
    ("a file without a name", "openat(AT_FDCWD</elsewhere>, '/r/files', O_RDWR|O_TMPFILE, 0600) = 3</r/files/#1>", "calls:1: .*"),
    ("a shared writable mapping", OPEN + "mmap(NULL, 4096, PROT_READ|PROT_WRITE, MAP_SHARED, 3<a>, 0) = 0x700000", "calls:2: .*can be written unseen"),
    ("a descriptor of another name", OPEN + B + "write(3<b>, 'A*512', 512) = 512", "calls:3: .*no call was seen that made descriptor 3 one of b"),
]


@contextlib.contextmanager
def without_again():
    """By `writeback` no blocks are used again."""
    rules = TABLES["writeback"]
    TABLES["writeback"] = dataclasses.replace(rules, again=False)
    try:
        yield
    finally:
        TABLES["writeback"] = rules


def by_table(ordered, writeback=None, strict=None, ext4=None, btrfs=None, xfs=None):
    """What is wanted by each table."""
    writeback = ordered if writeback is None else writeback
    strict = writeback if strict is None else strict
    ext4 = writeback if ext4 is None else ext4
    return ordered, writeback, strict, ext4, ext4 if xfs is None else xfs, strict if btrfs is None else btrfs


def row_faults(name, text, *wanted):
    """What is wrong with the entries of a text, by each table."""
    before = wanted[-1] if isinstance(wanted[-1], dict) else {}
    wanted = [it for it in wanted if not isinstance(it, dict)]
    found = []
    for table, these in zip(BY_TABLE, by_table(*wanted)):
        try:
            with without_again():
                made = [told(it) for it in followed(strace(text), table, before).disk.entries]
        except Refused as refused:
            made = [f"refused: {refused}"]
        found += [] if made == these else [f"{name}, {table}: {made}"]
    return found


def again_faults(name, text, wanted, before=None):
    """What is wrong with the entries of bytes of a text, by `writeback`."""
    tracing = followed(strace(text), "writeback", before or {})
    rooms = {room: file.number for file in tracing.tree.files.values() for room in file.rooms}
    made = []
    for it in tracing.disk.entries:
        if it.kind == disk.WRITE and it.file in rooms:
            firsts = bytes(it.data[SECTOR * at] for at in range(it.count) if at == 0 or (it.sector + at) % 8 == 0)
            made.append(f"{rooms[it.file]}@{it.sector} {firsts.decode()}")
    return [] if "; ".join(made) == wanted else [f"{name}, writeback: {'; '.join(made)}"]


# What stands before each row of CALLS, and how many entries it makes.
FOUND, FOUND_FOLDERS = {b"a": b"x" * 600, b"b": b"y" * 600}, [b"in"]
BEFORE = """\
openat(AT_FDCWD</elsewhere>, '/r/files/a', O_RDWR) = 3<a>
openat(AT_FDCWD</elsewhere>, '/r/files/b', O_RDWR) = 4<b>
openat(AT_FDCWD</elsewhere>, '/r/files/in', O_RDONLY|O_DIRECTORY) = 8<in>
openat(AT_FDCWD</elsewhere>, '/r/files', O_RDONLY|O_DIRECTORY) = 9</r/files>
mkdir('/r/files/x', 0777) = 0
pwrite64(3<a>, 'C*512', 512, 0) = 512
pwrite64(4<b>, 'C*512', 512, 0) = 512
"""
BEGUN = 3


def path_of(slot, state):
    """The path of a slot by some names."""
    folder, name = slot
    above = next((it for it, held in state.items() if held == (FOLDER, folder)), None)
    return (path_of(above, state) + "/" if above else "") + name.decode()


def renamed(before, after):
    """What is different in names, as rows/file_calls.py has it."""
    called = {held: path_of(slot, before) for slot, held in sorted(before.items(), reverse=True)}
    gone = {held: slot for slot, held in before.items() if slot not in after}
    parts = []
    for slot, held in sorted(after.items()):
        path, old = path_of(slot, after), called.get(held)
        if slot not in before:
            parts.append(f"{path_of(gone.pop(held), before)}>{path}" if held in gone else f"+{path}={old}" if old else f"+{path}")
        elif before[slot] != held:
            parts.append(f"{path}={old}")
            gone.pop(before[slot], None)
    return " ".join(["names", *(f"-{path_of(slot, before)}" for slot in sorted(gone.values())), *parts])


def brief(tracing):
    """The entries of a row of CALLS, as it has them."""
    owners, state, found = told_entries.owners(tracing.tree), dict(tracing.tree.one.initial), []
    for it in tracing.disk.entries:
        durable = "durable " if it.kind == disk.FUA else ""
        if it.kind in (disk.FLUSH, disk.MARK):
            found.append(KINDS[it.kind])
        elif isinstance(it.file, Names):
            before, state = state, it.file.state(struct.unpack_from("<Q", it.data)[0])
            found.append("durable names" if durable else renamed(before, state))
        elif isinstance(it.file, Size):
            found.append(f"{durable}size {owners[it.file].first.decode()} {struct.unpack_from('<Q', it.data)[0]}")
        else:
            last = it.sector + it.count - 1
            found.append(f"{durable}bytes {owners[it.file].first.decode()} {it.sector}" + (f"-{last}" if last > it.sector else ""))
    return "; ".join(found[BEGUN:])


def call_fault(call, text, wanted):
    """What is wrong with what a recording has of a call."""
    try:
        found = brief(followed(strace(BEFORE + text), "ext4", FOUND, FOUND_FOLDERS))
    except Refused as refused:
        found = f"refused {refused}"
    good = re.match("refused .*" + wanted[8:], found) if wanted.startswith("refused") else found == wanted
    return None if good else f"{call}: {found}"


# What stands of a file besides its bytes: the calls that change it, and the note of these.
BESIDE = {
    "fchmod(3<a>, 0600) = 0\nchmod('/elsewhere/a', 0600) = 0\nfchmodat(9</r/files>, 'in', 0700) = 0": "permissions were changed (a by calls:8, in by calls:10): each image has those of the end, so what a crash does to them isn't tested",
    "fsetxattr(3<a>, 'user.x', 'A', 1, 0) = 0\nsetxattr('/r/files/b', 'user.x', 'A', 1, 0) = 0\nsetxattr('/r/files/b', 'user.x', 'A', 1, 0) = -1 ENOTSUP (Operation not supported)": "attributes were changed (a by calls:8, b by calls:9): no image has them, so what a crash does to them isn't tested",
    "removexattr('/r/files/a', 'user.x') = 0": "attributes were changed (a by calls:8): no image has them, so what a crash does to them isn't tested",
    "fchown(3<a>, 1, 1) = 0\nfchownat(9</r/files>, 'in', 1, 1, AT_SYMLINK_NOFOLLOW) = 0\nlchown('/elsewhere/a', 1, 1) = 0": "owners were changed (a by calls:8, in by calls:9): no image has them, so what a crash does to them isn't tested",
    "utimensat(3<a>, NULL, NULL, 0) = 0\nutimensat(AT_FDCWD</r/files>, 'b', [UTIME_NOW, UTIME_OMIT], 0) = 0\nutimes('/r/files/in', NULL) = 0": "times were changed (a by calls:8, b by calls:9, in by calls:10): no image has them, so what a crash does to them isn't tested",
    "symlink('a', '/r/files/c') = 0\nlsetxattr('/r/files/c', 'trusted.x', 'A', 1, 0) = 0\nutimensat(9</r/files>, 'c', NULL, AT_SYMLINK_NOFOLLOW) = 0": None,
}


def beside_fault(text, wanted):
    """What is wrong with the note of what changed beside bytes."""
    notes = followed(strace(BEFORE + text), "ext4", FOUND, FOUND_FOLDERS).notes
    return None if notes == ([wanted] if wanted else []) else f"beside its bytes, {text}: {notes}"


DIRECT = OPEN.replace("O_RDWR", "O_RDWR|O_DIRECT").replace("= 3", "= 4")
AT_A_SYNC = "fsync(3<a> <unfinished ...>\n101 pwrite64(3<a>, 'B*100', 100, 0) = 100\n101 pwrite64(4<a>, 'C*512', 512, 1024) = 512\n101 pwrite64(3<a>, 'D*100', 100, 0) = 100\n<... fsync resumed>) = 0\n101 +++ exited with 0 +++"
TWO_OF_A_PAGE = THREAD + "pwrite64(3<a>, 'A*512', 512, 0 <unfinished ...>\n101 pwrite64(3<a>, 'B*512', 512, 1024) = 512\n<... pwrite64 resumed>) = 512\n101 +++ exited with 0 +++"
# By pages, by `ext4`: the name, the text, the entries, or what is said; what stood there before.
BY_PAGES = [
    ("a write over what is there", AGAIN + "pwrite64(3<a>, 'A*1', 1, 4099) = 1", ["bytes 8-15"], {b"a": b"x" * 6000}),
    ("a write to three pages", AGAIN + "pwrite64(3<a>, 'A*5000', 5000, 4000) = 5000", ["bytes 0-7", "bytes 8-15", "bytes 16-23", "size 0 8192", "size 0 9000"], {b"a": b"x" * 6000}),
    ("O_DIRECT", AGAIN + DIRECT.replace("|O_CREAT, 0644", "") + "pwrite64(4<a>, 'A*1024', 1024, 3584) = 1024\npwrite64(3<a>, 'A*1024', 1024, 3584) = 1024\nfcntl(4<a>, F_SETFL, O_RDWR) = 0\npwrite64(4<a>, 'A*512', 512, 0) = 512", ["bytes 7-8", "bytes 0-7", "bytes 8-15", "bytes 0-7"], {b"a": b"x" * 6000}),
    ("what is written while a sync lasts", OPEN + DIRECT.replace("|O_CREAT, 0644", "") + THREAD + WRITE + AT_A_SYNC, [*MADE, "bytes 0-7", "size 0 512", "bytes 0-7", "bytes 2", "size 0 1536", "bytes 0-7", "fua bytes 0-7", "fua size 0 512", "fua names a=0", "bytes 0-7", "bytes 2", "bytes 0-7"]),
    ("shorter, with writes in flight", AGAIN + WRITE * 2 + "ftruncate(3<a>, 100) = 0", ["bytes 0-7", "bytes 0-7", "bytes 0-7", "bytes 0", "bytes 0", "size 0 100 room 1"], {b"a": b"x" * 1200}),
    ("two of a page at once", AGAIN + TWO_OF_A_PAGE, "calls:3: .*another call wrote the same page at once", {b"a": b"x" * 6000}),
]


def by_pages_faults(name, text, wanted, before=None):
    """What is wrong with the entries of a text that is followed by pages. By calls none is refused."""
    try:
        made = [told(it) for it in followed(strace(text), "ext4", before, pages=True).disk.entries]
    except Refused as refused:
        made = str(refused)
        followed(strace(text), "ext4", before)
    good = re.match(wanted, made) if isinstance(wanted, str) and isinstance(made, str) else made == wanted
    return [] if good else [f"by pages, {name}: {made}"]


# A file from outside, `source` in `outside`, which gets a name in the folder. The name, the text, and the entries, or what is said.
COMES = [
    ("a link", "link('source', '/r/files/a') = 0", ["names a=0"]),
    ("a rename", "rename('elsewhere', '/r/files/a') = 0", "it isn't there any more"),
    ("a link of a file that is written", "openat(AT_FDCWD</elsewhere>, 'x', O_RDWR) = 3<source>\nlink('source', '/r/files/a') = 0", "the program opens it to write it"),
    ("a link of a file that is written then", "link('source', '/r/files/a') = 0\nopenat(AT_FDCWD</elsewhere>, 'x', O_RDWR) = 3<a>\nwrite(3<a>, 'B', 1) = 1", "what became of it afterwards leaves it unknown"),
]


def comes_faults():
    """What is wrong with files that come from outside: the entries, and what they hold; what was written late is refused."""
    found = []
    with tempfile.TemporaryDirectory() as folder:
        source = Path(os.path.realpath(folder), "source")
        source.write_bytes(b"x" * 700)
        begun = source.stat().st_mtime_ns + 1
        late = ("a file that was written as late", COMES[0][1], "it was written after the recording began")
        for name, text, wanted, when in [*((*it, begun) for it in COMES), (*late, begun - 1)]:
            text = text.replace("<source>", f"<{source}>").replace("'source'", f"'{source}'")
            try:
                tracing = followed(strace(text), "ext4", begun=when)
                made = [told(it) for it in tracing.disk.entries]
                good = made == wanted and bytes(tracing.files[b"a"].content) == b"x" * 700
            except Refused as refused:
                made = str(refused)
                good = isinstance(wanted, str) and re.search(wanted, made)
            found += [] if good else [f"from outside, {name}: {made}"]
    return found


def refused_faults(name, text, says):
    """What is wrong with how a text is refused, by each table; nothing is said where it isn't to be."""
    found = []
    for table in TABLES:
        try:
            said = followed(strace(text), table) and None
        except Refused as refused:
            said = str(refused)
        good = said is None if says is None else said is not None and re.match(says, said)
        found += [] if good else [f"{name}, {table}: {said}"]
    return found


# What the file `entries` says of a text, by `ext4`: the calls as people write them, of two processes and a thread.
SHELL = "execve('/bin/sh', ['sh', '-c', 'mv it'], 0x7f /* 9 vars */) = 0\n"
CHILD = "fork() = 101\n101 execve('/bin/mv', ['mv', '/r/files/a', 'to b'], 0x7f /* 9 vars */) = 0\n101 rename('/r/files/a', '/r/files/to b') = 0\n101 +++ exited with 0 +++\n"
MARKED = "openat(AT_FDCWD</elsewhere>, '/r/marks', O_WRONLY|O_APPEND) = 5</r/marks>\nwrite(5</r/marks>, '0 it is there@', 14) = 14\n"
THREADED = THREAD + "101 pwrite64(3<to b>, 'B*512', 512, 4096 <unfinished ...>\nfsync(9</r/files>) = 0\n101 <... pwrite64 resumed>) = 512\nsync() = 0\n101 +++ exited with 0 +++\n"
TOLD = SHELL + TOP_FOLDER + OPEN + WRITE + "ftruncate(3<a>, 100) = 0\n" + CHILD + MARKED + THREADED + "unlinkat(9</r/files>, 'to b', 0) = 0\n"
ENTRIES = """\
0 open("a", O_RDWR|O_CREAT); the names; sh -c "mv it", process 100; calls:3
1 write("a", 512 bytes at 0); its bytes; sh -c "mv it", process 100; calls:4
2 write("a", 512 bytes at 0); its size; sh -c "mv it", process 100; calls:4
3 ftruncate("a", 100); its bytes; sh -c "mv it", process 100; calls:5
4 ftruncate("a", 100); its bytes; sh -c "mv it", process 100; calls:5
5 ftruncate("a", 100); its size; sh -c "mv it", process 100; calls:5
6 rename("a", "to b"); the names; mv $FILES/a "to b", process 101; calls:8
7 mark it is there; sh -c "mv it", process 100; calls:11
8 fsync($FILES); the names, durable; sh -c "mv it", process 100; calls:14
9 pwrite("to b", 512 bytes at 4096); its bytes; sh -c "mv it", process 100 thread 101; calls:13
10 pwrite("to b", 512 bytes at 4096); its size; sh -c "mv it", process 100 thread 101; calls:13
11 pwrite("to b", 512 bytes at 4096); its size; sh -c "mv it", process 100 thread 101; calls:13
12 sync(); a flush; sh -c "mv it", process 100; calls:16
13 unlink("to b"); the names; sh -c "mv it", process 100; calls:18
"""


def entries_fault():
    """What is wrong with the file `entries` of a text."""
    with tempfile.NamedTemporaryFile() as file:
        file.write(strace(TOLD).replace(rb"\x40", rb"\x0a"))
        file.flush()
        tracing = traced.follow_names(file.name, FILES, {}, (), (), HERE, MARKS, "ext4")
    text = told_entries.entries_text(list(named_layout.Laid(tracing.tree).entries()), told_entries.owners(tracing.tree))
    return None if text == ENTRIES else f"entries: {text}"


# Random runs

def crossed_faults(seed):
    """What is wrong with calls of several threads at once, by each table. Each state of the log has to be one that a crash leaves, and where no
    note says otherwise each of these is one of the log."""
    events, found = crossed_calls.chosen(random.Random(seed)), []
    for table in BY_TABLE:
        try:
            tracing = followed(strace(crossed_calls.text_of(events)), table, crossed_calls.FILES)
        except Refused:
            continue
        has_note = any("in flight where a sync ended" in it for it in tracing.notes)
        states = {crossed_calls.disk_of(dict(tree)) for _, tree in log_states(named_layout.Laid(tracing.tree))}
        wanted = crossed_calls.left(events)
        if not (states <= wanted and (has_note or states == wanted)):
            found.append(f"run {seed} by {table}: {len(wanted - states)} states are missing, {len(states - wanted)} impossible: {events}")
    return found


def model_of(steps, table, looked=None, unit=SECTOR):
    """What the model makes of it."""
    model, begun = named_model.Model(table, looked, unit), []
    if steps and steps[0][0] == "base":
        model.base[steps[0][1]] = ("file", 0)
        model.files.append(named_model.File(content_of(steps[0][2]), unit))
    model.later = [set(words[:2]) for what, *words in steps if what in ("rename", "exchange")]
    model.crash()
    for what, *words in steps:
        if what == "make":
            model.make_file(words[0])
        elif what == "folder":
            model.make_folder(words[0])
        elif what in ("write", "hole"):
            model.write(*words)
        elif what == "through":
            model.through(*words)
        elif what == "part":
            model.write_out(*words)
        elif what == "resize":
            model.resize(*words)
        elif what == "allocate":
            model.allocate(*words)
        elif what == "remove":
            model.change({words[0]: None})
        elif what in ("rename", "exchange", "link"):
            now = {slot: held for change in [model.base, *model.changes] for slot, held in change.items()}
            slot, to = words
            gone = {} if what == "link" else {slot: now.get(to) if what == "exchange" else None}
            model.change({**gone, to: now[slot]}, what == "exchange")
        elif what == "sync":
            model.synced(model.seen(words[0]))
        elif what == "sync data":
            model.synced(model.seen(words[0], data=True))
        elif what == "sync folder":
            model.synced(model.seen_folder(words[0]))
        elif what == "sync all":
            model.synced(model.seen_all())
        elif what == "begin":
            begun.append(model.seen(words[0]))
        elif what == "end":
            model.synced(begun.pop(0))
        elif what == "mark":
            model.mark()
    return model


def laid_of(steps, table, chance, pages=False):
    """What is recorded of a text of a run."""
    text, before = text_of(steps, chance, not pages)
    return named_layout.Laid(followed(text, table, before, pages=pages).tree)


def log_states(laid, looked=None):
    """Every state of the files that an image of a log has, with the number of marks: by pages where these were written."""
    entries = [(KINDS[it.kind], 0 if it.file is None else laid.firsts[it.file] + it.sector, it.data) for it in laid.entries()]
    return named_model.log_leaves(entries, laid.image(), [(it.sector, it.slots) for it in laid.sets], looked, laid.tree.disk.pages)


def looked_at(states, looked):
    """States with those sectors of the files alone that are looked at."""
    return {(marks, frozenset((path, content if content is None else seen_of(content, looked)) for path, content in tree)) for marks, tree in states}


def seen_of(content, looked):
    return len(content), b"".join(content[SECTOR * at : SECTOR * (at + 1)] for at in sorted(looked))


A, D = (0, b"a"), (0, b"d")
# Runs that chance seldom makes.
PLANS = {
    "what is kept of a write in flight": [("base", A, 600), ("write", 0, 0, b"x" * 512), ("resize", 0, 100), ("sync", 0)],
    "a write in flight, kept and lost": [("base", A, 600), ("write", 0, 0, b"x" * 512), ("resize", 0, 100), ("write", 0, 50, b"y" * 100), ("mark",)],
    "a new folder is synced": [("folder", D), ("make", (1, b"a")), ("rename", (1, b"a"), A), ("sync folder", 1), ("mark",)],
    "a folder is synced before it is filled": [("folder", D), ("sync folder", 1), ("make", (1, b"a")), ("mark",), ("sync folder", 0)],
    "a new name of a file that is synced": [("make", A), ("rename", A, D), ("sync", 0), ("mark",)],
    "names that are exchanged, and one is synced": [("make", A), ("make", D), ("write", 1, 0, b"x" * 100), ("sync", 1), ("exchange", A, D), ("sync", 0), ("mark",)],
    "a size after names": [("make", A), ("make", D), ("write", 0, 0, b"x" * 100), ("sync", 0), ("mark",)],
    "names that a rename ties together later": [("make", A), ("make", D), ("sync", 1), ("mark",), ("rename", A, D), ("sync folder", 0)],
    "names after a size": [("make", A), ("write", 0, 0, b"x" * 100), ("make", D), ("sync", 0), ("mark",)],
    "a sync of a file that nobody shows": [("base", A, 512), ("remove", A), ("through", 0, 312, b"x" * 700), ("make", A), ("write", 0, 1012, b"y" * 100), ("sync", 0), ("mark",)],
    "replaced, and its blocks are used again": [("base", A, 512), ("make", D), ("write", 1, 0, b"x" * 600), ("sync", 1), ("rename", D, A), ("mark",), ("make", D), ("write", 2, 0, b"y" * 4200), ("write", 2, 100, b"z" * 100), ("mark",), ("resize", 2, 100), ("mark",), ("sync", 2)],
    "shorter, and its blocks are used again": [("base", A, 4396), ("resize", 0, 100), ("make", D), ("write", 1, 0, b"y" * 4200), ("mark",), ("write", 0, 100, b"z" * 4196), ("sync", 0), ("mark",)],
    "a name that another file had": [("make", A), ("rename", A, D), ("make", A), ("sync", 1), ("mark",), ("sync", 0), ("mark",)],
    "a synced file whose name another had, and that gets another": [("make", A), ("write", 0, 0, b"x" * 100), ("rename", A, D), ("make", A), ("write", 1, 0, b"y" * 100), ("sync data", 1), ("mark",), ("rename", A, (0, b"e")), ("sync", 1), ("mark",)],
    "a part is synced within the durable size": [("base", A, 600), ("folder", D), ("write", 0, 512, b"x" * 500), ("through", 0, 0, b"y" * 10), ("mark",)],
    "a part is synced in the middle of what grew": [("base", A, 100), ("folder", D), ("write", 0, 100, b"x" * 5000), ("make", (0, b"e")), ("through", 0, 4000, b"y" * 10), ("mark",)],
    "a part is synced past a size that was given at once": [("base", A, 100), ("resize", 0, 700), ("folder", D), ("through", 0, 0, b"y" * 10), ("mark",), ("write", 0, 700, b"x" * 100), ("through", 0, 0, b"y" * 10), ("mark",)],
    "a part is written back, and what stands before it isn't": [("base", A, 100), ("write", 0, 4096, b"x" * 4600), ("part", 0, 8192), ("mark",), ("through", 0, 8700, b"y" * 10), ("mark",), ("sync", 0), ("mark",)],
    "a part is synced, and what stands before it isn't": [("make", A), ("write", 0, 0, b"x" * 4200), ("through", 0, 4200, b"y" * 10), ("mark",), ("resize", 0, 4100), ("mark",)],
    "a gap": [("base", A, 100), ("write", 0, 4200, b"x" * 100), ("mark",), ("write", 0, 0, b"y" * 10), ("through", 0, 100, b"y" * 10), ("mark",)],
    "growth that is taken back": [("base", A, 0), ("folder", D), ("write", 0, 0, b"x" * 100), ("resize", 0, 0), ("sync data", 0), ("mark",), ("sync", 0), ("mark",)],
    "growth that is taken back in part": [("base", A, 100), ("write", 0, 100, b"x" * 5000), ("folder", D), ("resize", 0, 4096), ("sync data", 0), ("mark",), ("make", (0, b"e")), ("write", 0, 4096, b"y" * 10), ("sync data", 0), ("mark",)],
    "growth that was written down is taken back": [("base", A, 0), ("write", 0, 0, b"x" * 100), ("sync data", 0), ("folder", D), ("resize", 0, 0), ("sync data", 0), ("mark",)],
    "room is reserved": [("base", A, 100), ("folder", D), ("allocate", 0, 50, 5000), ("mark",), ("sync data", 0), ("mark",)],
    "cut off, and longer again": [("base", A, 600), ("resize", 0, 100), ("resize", 0, 700), ("mark",), ("through", 0, 600, b"x" * 10), ("mark",), ("sync", 0), ("mark",)],
    "cut off twice, and longer again": [("base", A, 700), ("write", 0, 100, b"z" * 300), ("resize", 0, 300), ("resize", 0, 100), ("write", 0, 512, b"x" * 10), ("mark",), ("sync data", 0), ("mark",)],
    "moved to a folder that is synced": [("folder", D), ("make", A), ("sync all",), ("rename", A, (1, b"a")), ("sync folder", 1), ("mark",), ("make", A), ("sync", 1), ("mark",), ("sync folder", 0), ("mark",)],
    "moved on from a folder that is synced": [("folder", D), ("make", A), ("make", (0, b"b")), ("sync all",), ("rename", A, (1, b"a")), ("sync folder", 1), ("rename", (1, b"a"), (0, b"b")), ("mark",), ("sync folder", 0), ("mark",)],
    "moved over a file, and back": [("folder", D), ("make", A), ("make", (1, b"b")), ("sync all",), ("rename", A, (1, b"b")), ("sync folder", 1), ("mark",), ("rename", (1, b"b"), A), ("sync folder", 1), ("mark",), ("sync", 0), ("mark",)],
    "replaced": [("base", A, 100), ("make", D), ("write", 0, 0, b"x" * 50), ("write", 1, 0, b"x" * 600), ("sync", 1), ("rename", D, A), ("mark",), ("sync folder", 0)],
}


def run_faults(seed, faults=None):
    """What is wrong with a random run, by each table."""
    chance = random.Random(seed)
    return (faults or plan_faults)(f"run {seed}", plan_of(chance), chance)


def plan_faults(name, steps, chance):
    """What is wrong with a run, by each table. States are told apart by the marks before them, so one stands at the end."""
    found, allowed, steps = [], {}, [*steps, ("mark",)]
    for table in TABLES:
        looked = LOOKED if table == "writeback" or name.endswith("used again") else None
        try:
            wanted, laid = model_of(steps, table, looked).left, laid_of(steps, table, chance)
        except Refused as refused:
            return [f"{name}, {table}: refused: {refused}: {steps}"]
        made = log_states(laid, looked)
        allowed[table] = wanted, looked
        if made != wanted:
            found.append(f"{name}, {table}: {len(wanted - made)} states are missing, {len(made - wanted)} impossible: {steps}")
        if named_layout.read_map(laid.map_text()) != (laid.sets, laid.rooms, laid.sectors, [], {}):
            found.append(f"{name}, {table}: the map is read as another")
    for strong, weak in WEAKER:
        (one, seen), (other, looked) = allowed[strong], allowed[weak]
        more = (looked_at(one, LOOKED) if looked and not seen else one) - other
        if more:
            found.append(f"{name}: {weak} doesn't allow {len(more)} states that {strong} allows: {steps}")
    return found


def pages_faults(name, steps, chance):
    """What is wrong with a run that is written by pages, by each table: a crash leaves each page as it was at some time, and the log has
    entries of one page each."""
    found, steps = [], [*steps, ("mark",)]
    for table in TABLES:
        try:
            wanted, laid = model_of(steps, table, unit=named_model.BLOCK).left, laid_of(steps, table, chance, True)
        except Refused as refused:
            return [f"{name}, {table}, by pages: refused: {refused}: {steps}"]
        made = log_states(laid)
        if made != wanted:
            found.append(f"{name}, {table}, by pages: {len(wanted - made)} states are missing, {len(made - wanted)} impossible: {steps}")
        if any(it.kind == disk.WRITE and it.sector // disk.PAGE != (it.sector + it.count - 1) // disk.PAGE for it in laid.tree.disk.entries):
            found.append(f"{name}, {table}, by pages: a write of more than a page: {steps}")
    return found


# What is left of names of which b was made at once with some others, by all tables but `strict`: how many others, what is done then,
# and the names that a crash leaves at the end. x was there.
AT_ONCE = [
    (1, (), "x ax bx abx"),
    (1, ("a",), "ax abx"),
    (1, ("b",), "bx abx"),
    (1, ("a", "b"), "abx"),
    (1, ("b", "a"), "abx"),
    (1, ("folder",), "abx"),
    (1, ("e",), "x ax bx abx abex"),
    (1, ("e", "a"), "ax abx abex"),
    (1, ("e", "b"), "bx abx abex"),
    (1, ("all",), "abx"),
    (2, (), "x ax acx bx abx abcx"),
    (2, ("a",), "ax acx abx abcx"),
    (2, ("c",), "acx abcx"),
    (2, ("b", "a"), "abx abcx"),
    (2, ("a", "c", "b"), "abcx"),
    (2, ("b", "c"), "abcx"),
]


def at_once_fault(others, then, wanted):
    """What is wrong with the names that a crash leaves of changes that were made at once."""
    for table in ("ext4", "ordered", "writeback", "xfs"):
        tree = Tree(table, disk.Disk())
        files = {"x": tree.make_file((0, b"x"))}
        tree.end_sync(tree.begin_all())
        files |= {name: tree.make_file((0, name.encode())) for name in "ac"[:others]}
        tree.beside = list(tree.recent)[-others:]
        files["b"] = tree.make_file((0, b"b"))
        for what in then:
            if what == "e":
                files["e"] = tree.make_file((0, b"e"))
            else:
                tree.end_sync(tree.begin_folder(0) if what == "folder" else tree.begin_all() if what == "all" else tree.begin_file(files[what]))
        tree.disk.mark(b"")
        left = {b"".join(sorted(path for path, _ in tree)).decode() for marks, tree in log_states(named_layout.Laid(tree)) if marks}
        if left != set(wanted.split()):
            return f"{others} at once, then {then}, {table}: {sorted(left)}"
    return None


def once_fault(laid):
    """What is wrong with the versions of chains that are left where at most one write is lost: all that may be left are."""
    names = [(it.sector, it.slots) for it in laid.sets]
    chains = {*(it.sector for it in laid.sets), *(it.size for it in laid.rooms)}
    entries = [(KINDS[it.kind], 0 if it.file is None else laid.firsts[it.file] + it.sector, it.data) for it in laid.entries()]
    for cut in range(len(entries) + 1):
        last = max((at for at in range(cut) if entries[at][0] == "flush"), default=0)
        whole = named_model.Reader(laid.image(), named_model.kept_at(entries, laid.image(), cut), names)
        left, found = {(first, *it) for first in chains for it in whole.chain(first)}, set()
        for lost in [None, *(at for at in range(last, cut) if entries[at][0] == "write")]:
            image = bytearray(laid.image())
            for at, (kind, first, data) in enumerate(entries[:cut]):
                if at != lost and kind in ("write", "fua"):
                    image[SECTOR * first : SECTOR * first + len(data)] = data
            found |= {(first, *it) for first in chains for it in named_model.Reader(bytes(image), {}, names).chain(first)}
        if found != left:
            return f"at cut {cut} {len(left - found)} of {len(left)} versions are lost by no single write"
    return None


# A file is replaced by one that was synced, and another is written then: where the rename is lost its blocks may be used again.
KEPT = [("base", A, 4096), ("make", D), ("write", 1, 0, b"n" * 600), ("sync", 1), ("rename", D, A), ("mark",), ("make", D), ("write", 2, 0, b"y" * 600)]


def kept_fault():
    """What is wrong with a file that is replaced: by `writeback` one loss leaves it with bytes of another, and by no other table any does."""
    for table in TABLES:
        laid = laid_of(KEPT, table, random.Random(1))
        entries = [(KINDS[it.kind], 0 if it.file is None else laid.firsts[it.file] + it.sector, it.data) for it in laid.entries()]
        marked = [at for at, it in enumerate(entries) if it[0] == "mark"][0]
        names = [(it.sector, it.slots) for it in laid.sets]
        once = set()
        for cut in range(marked + 1, len(entries) + 1):
            last = max((at for at in range(cut) if entries[at][0] == "flush"), default=0)
            for lost in (at for at in range(last, cut) if entries[at][0] == "write"):
                rest = [it for at, it in enumerate(entries[:cut]) if at != lost]
                kept = {first + at: {data[SECTOR * at : SECTOR * (at + 1)]} for _, first, data in rest for at in range(len(data) // SECTOR)}
                once |= set(named_model.Reader(laid.image(), kept, names).trees())
        with_others = [tree for tree in once if b"y" * 300 in dict(tree).get(b"a", b"")]
        any_lost = [tree for _, tree in log_states(laid, LOOKED) if b"y" * 300 in dict(tree).get(b"a", (0, b""))[1]]
        if bool(with_others) != (table == "writeback") or bool(any_lost) != (table == "writeback"):
            return f"a file that is replaced, {table}: {len(with_others)} states of one loss, and {len(any_lost)} of any, have bytes of another"
    return None


# A file that isn't synced is moved away from its name, and another that has it then is synced; and so where the first was synced before.
MOVED = [("make", A), ("write", 0, 0, b"x" * 100), ("rename", A, D), ("make", A), ("write", 1, 0, b"y" * 100), ("sync", 1), ("mark",)]
MOVED_SYNCED = [*MOVED[:2], ("sync", 0), *MOVED[2:]]


def alone_fault():
    """What is wrong with a synced file whose name another had: btrfs may leave it alone, where that other wasn't synced, and `strict` allows it."""
    for table in TABLES:
        for steps, wanted in ((MOVED, ("btrfs", "strict")), (MOVED_SYNCED, ())):
            alone = (1, frozenset({(b"a", b"y" * 100)})) in log_states(laid_of(steps, table, random.Random(1)))
            if alone != (table in wanted):
                return f"a synced file whose name another had, {table}: it is left alone: {alone}, after {steps}"
    return None


def long_fault():
    """What is wrong with a chain of many changes: after a flush it begins anew, and no image has a row of more than some."""
    steps = [("make", A), *(step for turn in range(200) for step in (("write", 0, 100 * turn, b"x" * 100), ("sync", 0)))]
    for table in TABLES:
        laid = laid_of(steps, table, random.Random(1))
        (size,) = {it.size for it in laid.rooms}
        image, row, most = bytearray(laid.image()), 0, 0
        for it in laid.entries():
            if it.count:
                first = laid.firsts[it.file] + it.sector
                image[SECTOR * first : SECTOR * (first + it.count)] = it.data
                row = 0 if first == size else row + (it.kind == disk.WRITE and size < first <= size + 200)
                most = max(most, row)
        ((length, _),) = named_model.Reader(bytes(image), {}, []).chain(size)
        if length != 20000 or most > named_layout.LONG + 1:
            return f"a long chain, {table}: its size is {length}, and its longest row {most}"
    return None


def log_fault(laid):
    """What is wrong with the bytes of a log: it has the entries, each on the device, and marks say nothing else."""
    parts, _ = layout.log_of(list(laid.entries()), laid.firsts, laid.sectors)
    found = [(it.sector, it.flags, it.data) for it in entries_of(b"".join(parts))]
    wanted = [(laid.firsts[it.file] + it.sector if it.file else 0, it.kind, b"" if it.kind == disk.MARK else it.data) for it in laid.entries()]
    inside = all(sector + len(data) // SECTOR <= laid.sectors for sector, _, data in found)
    return None if found == wanted and inside else "the log has other entries"


def flags_fault(laid):
    """What is wrong with a log whose flushes are flags of the writes after them, as one of too many entries has them: it has other images."""
    entries, sets = list(laid.entries()), []
    if len(entries) > 12:
        return None
    for these in (entries, layout.with_flags(entries)):
        found = [Entry(it.sector, it.count, it.flags, it.text, it.data) for it in entries_of(b"".join(layout.log_of(these, laid.firsts, laid.sectors)[0]))]
        run = Run(found, laid.sectors, bound=len(found), by="write", base=laid.image())
        sets.append({(run.marks(it.cut), it.content()) for it in run.images()})
    return None if sets[0] == sets[1] and not any(one.kind == disk.FLUSH and other.count and not other.flushes for one, other in zip(these, these[1:])) else "flushes as flags give other images"


def images_of(laid, entries, stretch):
    """What a crash may leave, with as many marks, by what one of several logs has."""
    these = [entries[it] for it in stretch.numbers]
    found = [Entry(it.sector, it.count, it.flags, it.text, it.data) for it in entries_of(b"".join(layout.log_of(these, laid.firsts, laid.sectors)[0]))]
    run = Run(found, laid.sectors, bound=len(found), by="write", first=stretch.first, base=stretch.base)
    return {(run.marks(it.cut), it.content()) for it in run.images()}


def logs_fault(laid, chance):
    """What is wrong with a recording that has more than a log may have: all its logs together have other images than one log that may have more."""
    entries = chance.choice((list, layout.with_flags))(list(laid.entries()))
    if not 4 <= len(entries) <= 12:
        return None
    (whole,) = logs.split(entries, laid.firsts, laid.image())
    try:
        found = list(logs.split(entries, laid.firsts, laid.image(), chance.randrange(3, len(entries))))
    except Refused:
        return None
    cuts = [it.whole_cut(cut) for it in found for cut in range(it.first, len(it.numbers) + 1)]
    if len(found) < 2 or cuts != list(range(len(entries) + 1)):
        return f"the logs of {len(entries)} entries have the cuts {cuts}"
    images, wanted = set().union(*(images_of(laid, entries, it) for it in found)), images_of(laid, entries, whole)
    return None if images == wanted else f"{len(found)} logs lack {len(wanted - images)} images, and have {len(images - wanted)} others"


def written_twice_fault():
    """What is wrong with several logs where two writes of a place, of which a part was made durable, are in flight where the second log begins."""
    laid, file = Device(), Device()
    laid.firsts, laid.sectors = {file: 0}, 8
    written = [disk.Entry(disk.WRITE, file, 0, bytes([it]) * 2 * SECTOR) for it in (1, 2)]
    entries = [*written, *(disk.Entry(disk.FUA, file, at, bytes([2 + at]) * SECTOR) for at in (0, 3, 4, 5, 6)), disk.Entry(disk.MARK, data=b"it")]
    (whole,), found = (list(logs.split(entries, laid.firsts, bytes(SECTOR * laid.sectors), most)) for most in (8, 6))
    images = set().union(*(images_of(laid, entries, it) for it in found))
    good = [it.numbers for it in found] == [tuple(range(6)), (0, 1, 2, 6, 7)] and images == images_of(laid, entries, whole)
    return None if good else f"two writes of a place in flight: the logs {[it.numbers for it in found]} have other images"


class Device:
    """What has the places of a log, or is one of them."""


def folder_of(path):
    """What a folder holds: a map of paths to contents, where a folder has none."""
    found = {}
    for here, folders, files in os.walk(os.fsencode(path)):
        for name in folders + files:
            full = os.path.join(here, name)
            found[os.path.relpath(full, os.fsencode(path))] = None if name in folders else Path(os.fsdecode(full)).read_bytes()
    return frozenset(found.items())


def image_fault(laid, chance):
    """What is wrong with the files of an image in which some writes are lost, as crashbpf-files lays them out."""
    image = bytearray(laid.image())
    for it in laid.entries():
        if it.count and chance.random() < 0.8:
            first = laid.firsts[it.file] + it.sector
            image[SECTOR * first : SECTOR * (first + it.count)] = it.data
    (wanted,) = named_model.Reader(bytes(image), {}, [(it.sector, it.slots) for it in laid.sets]).trees()
    with tempfile.TemporaryDirectory() as folder:
        try:
            named_layout.Image(io.BytesIO(image), named_layout.read_map(laid.map_text())).lay_out(folder)
        except Refused as refused:
            return f"the files of an image can't be laid out: {refused}"
        return None if folder_of(folder) == wanted else f"an image has other files: {folder_of(folder)}"


def bytes_faults(seed, count):
    """What is wrong with logs and images of random runs."""
    found = []
    for turn in range(count):
        chance = random.Random(seed + turn)
        laid = laid_of(plan_of(chance), chance.choice(list(TABLES)), chance)
        found += [f"run {seed + turn}: {it}" for it in (log_fault(laid), image_fault(laid, chance), once_fault(laid), flags_fault(laid) if turn < 40 else None, logs_fault(laid, chance) if turn < 120 else None) if it]
    return found


MAP = "crashbpf files 4\norders strict\nsectors 32\nnames 0 changes 1 places 3\nname a folder 0\nname b folder 0\nname a\\x20b folder 1\nsize 3 changes 1 first 8 sectors 2 name in/a\\x20b\nend\n"
# What is wrong with a map, and the line of it.
MAPS = [
    ("", "1:"),
    (MAP.replace("files 4", "files 3"), "1:"),
    (MAP.replace("files 4", "files 5"), "1:"),
    (MAP.replace("strict", "loose"), "1:"),
    (MAP[:-1], "9:"),
    (MAP.replace("end\n", ""), "9:"),
    (MAP.replace("names 0", "names 32"), "4:"),
    (MAP.replace("places 3", "places 4"), "4:"),
    (MAP.replace("places 3", "places 2"), "7:"),
    (MAP.replace("name b", "name a"), "4:"),
    (MAP.replace("name b", "name .."), "4:"),
    (MAP.replace("name b", "name ../b"), "4:"),
    (MAP.replace("name b", "name b\\x00"), "4:"),
    (MAP.replace("b folder 0", "b folder x"), "4:"),
    (MAP.replace("names 0 changes 1", "names 0 changes 31"), "4:"),
    (MAP.replace("names 0 changes 1 ", "names 0 "), "4:"),
    (MAP.replace("size 3 ", "size 32 "), "8:"),
    (MAP.replace("size 3 changes 1", "size 3 changes 28"), "8:"),
    (MAP.replace("first 8", "first 31"), "8:"),
    (MAP.replace("name in", "nam in"), "8:"),
    (MAP.replace("end\n", "other symlink\nend\n"), "9:"),
    (MAP.replace("end\n", "other fifo x\nend\n"), "9:"),
    (MAP.replace("end\n", "other device\nend\n"), "9:"),
    (MAP.replace("end\n", "mode 800 size 3\nend\n"), "9:"),
    (MAP.replace("end\n", "mode 700 name 3\nend\n"), "9:"),
]


def image_of(copy=16, size=3, first=8, held=((1, 3),), place=0):
    """An image of MAP, with a copy of its names. Of both chains the change is there; that of the names changes `place`."""
    image = bytearray(SECTOR * 32)
    struct.pack_into("<QQ", image, 0, 0, 31)
    struct.pack_into("<QQIII", image, SECTOR, 1, copy, place, 1, 3)
    struct.pack_into("<QQQ", image, SECTOR * 3, 1, size, first)
    image[SECTOR * 8 : SECTOR * 8 + 3] = b"abc"
    for at, it in enumerate(held):
        struct.pack_into("<II", image, SECTOR * 16 + 8 * at, *it)
    return bytes(image)


# What is wrong with an image, and what is said of it.
IMAGES = [
    (image_of(copy=32), "sector 32 isn't there"),
    (image_of(size=1025), "the file of sector 3 has 1025 bytes, and no room for them"),
    (image_of(first=9), "the file of sector 3 has 3 bytes, and no room for them"),
    (image_of(held=((4, 3),)), "the name a is of nothing"),
    (image_of(held=((1, 4),)), "the name a is of nothing"),
    (image_of(place=4), "the set of sector 0 has no name 4"),
]


def map_faults():
    """What is wrong with maps and images that are no such, and with how crashbpf-files says so."""
    found = []
    for text, says in MAPS:
        try:
            found.append(f"a map isn't refused: {text!r}: {named_layout.read_map(text)}")
        except Refused as refused:
            found += [] if str(refused).startswith(says) else [f"a map is refused so: {text!r}: {refused}"]
    with tempfile.TemporaryDirectory() as folder:
        names, image = Path(folder, "files.txt"), Path(folder, "image")
        names.write_text(MAP.replace("end\n", "other symlink a\nother inside a\nother fifo\nother socket\nmode 640 size 3\nmode 711 folder 0\nmode 700 folder 1\nend\n"))
        rows = [(image_of(held=((1, 3), (0, 0)), place=2), 7, "a b\nabcabc", "711\n640\n"), (image_of(held=((1, 3), (3, 0))), 7, "a b\nabcabc", "711\n640\n")]
        rows += [(image_of(held=((1, 3), (3, 1))), 7, "a b\nabcabc", ""), (image_of(held=((1, 3), (3, 2))), 7, "a b\nabc", ""), (image_of(held=((3, 4),)), 2, "", f"crashbpf-files: {image}: the name a is of nothing")]
        rows += [(content, 2, "", f"crashbpf-files: {image}: {says}") for content, says in IMAGES]
        for content, *wanted in rows:
            image.write_bytes(content)
            words = [sys.executable, RECORD / "crashbpf-files", names, image, "--", "sh", "-c", "echo *; cat a; test -p b || cat b; stat -c %a . a >&2; exit 7"]
            done = subprocess.run(words, capture_output=True, text=True)
            good = [done.returncode, done.stdout] == wanted[:2] and done.stderr.startswith(wanted[2])
            found += [] if good else [f"crashbpf-files, where {wanted}: {done}"]
    return found


def main(words):
    seed, count = (int(it) for it in (*words, *("1", "250")[len(words) :]))
    rows = [row_faults(*it) for it in ROWS] + [refused_faults(*it) for it in REFUSED]
    rows += [again_faults(*it) for it in AGAIN_ROWS]
    rows += [plan_faults(*it, random.Random(seed)) for it in PLANS.items()]
    rows += [comes_faults(), map_faults(), bytes_faults(seed, count), [it for it in [long_fault(), entries_fault(), kept_fault(), alone_fault(), written_twice_fault()] if it]]
    rows += [[it for it in [at_once_fault(*row)] if it] for row in AT_ONCE]
    rows += [[it for it in [call_fault(call, text, wanted)] if it] for call, _, text, wanted in CALLS]
    rows += [[it for it in [beside_fault(*row)] if it] for row in BESIDE.items()]
    rows.append([it for turn in range(count) for it in run_faults(seed + turn)])
    rows.append([it for turn in range(count) for it in crossed_faults(seed + turn)])
    rows += [by_pages_faults(*it) for it in BY_PAGES]
    rows += [pages_faults(*it, random.Random(seed)) for it in PLANS.items()]
    rows.append([it for turn in range(count) for it in run_faults(seed + turn, pages_faults)])
    for line in [it for these in rows for it in these]:
        print("FAILED", line)
    failed = sum(1 for it in rows if it)
    print(f"{len(rows) - failed} passed, {failed} failed")
    return 1 if failed else 0


if __name__ == "__main__":
    sys.exit(main(sys.argv[1:]))
