#!/usr/bin/env python3
"""Tests what crashbpf-record --mapped makes of stores to mapped files: the entries of the log, and what is refused.

    python3 tests/gate/mapped.py

Rows have a text of strace and what was looked at before which line; they need Python alone. Programs are recorded too, where
strace, a C compiler that links statically and the kernel's seccomp are there; else a line says why not. Where seccomp isn't,
the refusal that says so is tested in their place.

Prints a line for each row that failed, and last `N passed, M failed`. It takes some ten seconds.
"""
import os
import re
import shutil
import subprocess
import sys
import tempfile
from pathlib import Path

sys.dont_write_bytecode = True

import rooms

rooms.enter()

from notation import SECTOR, TOP
from rows.recording import entries_of as entries_in
from strace_texts import FILES, HERE, MARKS, strace
from traced import OPEN, THREAD, A, B, entries_of

from commands.record import looks
from commands.record import named_layout
from commands.record import traced
from commands.record.calls import Refused

RECORD = TOP / "commands/record/crashbpf-record"
PAGE = looks.PAGE
BEGIN = re.compile(rb"\d+ +\w+\(")
LONG = OPEN + "ftruncate(3<db>, 16384) = 0\n"
MAP = "mmap(NULL, 16384, PROT_READ|PROT_WRITE, MAP_SHARED, 3<db>, 0) = 0x700000\n"
# The first three lines of most rows.
MAPPED = LONG + MAP
SYNC = "msync(0x700000, 16384, MS_SYNC) = 0\n"
Z = bytes(SECTOR)


def page(*sectors):
    """A page that begins with these sectors."""
    return b"".join(sectors).ljust(PAGE, b"\0")


# The name, the text, the pages that were seen by the line before which they were (4.5: before the end of line 4), the entries, and
# the text's last lines where they are others.
FOLLOWED = [
    ("a store and a sync", MAPPED + SYNC, {4: {0: page(A)}}, [("w", "db", 0, A), ("f",)]),
    ("from the first sector to the last", MAPPED + SYNC, {4: {0: page(Z, A, Z, B)}}, [("w", "db", 1, A + Z + B), ("f",)]),
    ("two pages are two writes", MAPPED + SYNC, {4: {0: page(A), PAGE: page(B)}}, [("w", "db", 0, A), ("w", "db", 8, B), ("f",)]),
    ("a sync of one page", MAPPED + "msync(0x701000, 4096, MS_SYNC) = 0", {4: {0: page(A), PAGE: page(B)}}, [("w", "db", 0, A), ("w", "db", 8, B), ("fua", "db", 8, B)]),
    ("a sync of a part of a page is one of all", MAPPED + "msync(0x701000, 1, MS_SYNC) = 0", {4: {0: page(A), PAGE: page(Z, B)}},
     [("w", "db", 0, A), ("w", "db", 9, B), ("fua", "db", 9, B)]),
    ("MS_ASYNC makes nothing durable", MAPPED + "msync(0x700000, 16384, MS_ASYNC) = 0\nmsync(0x700000, 16384, MS_INVALIDATE) = 0", {4: {0: page(A)}}, [("w", "db", 0, A)]),
    ("a sync of memory that isn't mapped", MAPPED + "msync(0x800000, 4096, MS_SYNC) = 0\nmsync(0x700000, 65536, MS_SYNC) = -1 ENOMEM (Cannot allocate memory)", {4: {0: page(A)}}, [("w", "db", 0, A)]),
    ("fsync covers what is mapped", MAPPED + "fsync(3<db>) = 0", {4: {0: page(A)}}, [("w", "db", 0, A), ("f",)]),
    ("sync covers what is mapped", MAPPED + "sync() = 0", {4: {0: page(A)}}, [("w", "db", 0, A), ("f",)]),
    ("a store while another thread syncs", MAPPED + THREAD + "msync(0x700000, 16384, MS_SYNC <unfinished ...>\n101 getcwd(0x1, 9) = 9\n<... msync resumed>) = 0\n101 +++ exited with 0 +++",
     {5: {0: page(A)}, 6: {0: page(B)}}, [("w", "db", 0, A), ("w", "db", 0, B), ("fua", "db", 0, A), ("w", "db", 0, B)]),
    ("a store after the last call", MAPPED, {"end": {0: page(A)}}, [("w", "db", 0, A)]),
    ("what a call wrote is known", MAPPED + "pwrite64(3<db>, 'A*512', 512, 0) = 512\n" + SYNC, {5: {0: page(A)}}, [("w", "db", 0, A), ("f",)]),
    ("a store over what a call wrote", MAPPED + "pwrite64(3<db>, 'A*512', 512, 0) = 512\n" + SYNC, {5: {0: page(B)}}, [("w", "db", 0, A), ("w", "db", 0, B), ("f",)]),
    ("a store of what stood there before a call", MAPPED + "getcwd(0x1, 9) = 9\npwrite64(3<db>, 'A*512', 512, 0) = 512\n" + SYNC, {4: {0: page(B)}},
     [("w", "db", 0, B), ("w", "db", 0, A), ("w", "db", 0, B), ("f",)]),
    ("a write in flight that is seen already", MAPPED + THREAD + "pwrite64(3<db>, 'A*512', 512, 0 <unfinished ...>\n101 fsync(3<db>) = 0\n<... pwrite64 resumed>) = 512\n101 +++ exited with 0 +++\ngetcwd(0x1, 9) = 9",
     {6: {0: page(A), PAGE: page(B)}}, [("w", "db", 8, B), ("f",), ("w", "db", 0, A)]),
    ("a write in flight, and a store to its page", MAPPED + THREAD + "pwrite64(3<db>, 'A*512', 512, 0 <unfinished ...>\n101 fsync(3<db>) = 0\n<... pwrite64 resumed>) = 512\n101 +++ exited with 0 +++\ngetcwd(0x1, 9) = 9",
     {6: {0: page(A, B)}}, [("w", "db", 1, B), ("f",), ("w", "db", 0, A)]),
    ("a store of what a call was to write, and didn't", MAPPED + THREAD + "pwrite64(3<db>, 'A*512', 512, 0 <unfinished ...>\n101 getcwd(0x1, 9) = 9\n<... pwrite64 resumed>) = -1 EAGAIN (Resource temporarily unavailable)\n101 +++ exited with 0 +++\nfsync(3<db>) = 0",
     {6: {0: page(A)}}, [("w", "db", 0, A), ("f",)]),
    ("a store while another thread syncs, seen at its end", MAPPED + THREAD + SYNC, {5: {0: page(A)}, 5.5: {PAGE: page(B)}}, [("w", "db", 0, A), ("w", "db", 8, B), ("fua", "db", 0, A)], "101 +++ exited with 0 +++"),
    ("the same, where the other one makes a call", MAPPED + THREAD + SYNC.replace(") = 0", " <unfinished ...>") + "101 getcwd(0x1, 9) = 9\n<... msync resumed>) = 0\n101 +++ exited with 0 +++", {5: {0: page(A)}, 7.5: {PAGE: page(B)}},
     [("w", "db", 0, A), ("w", "db", 8, B), ("fua", "db", 0, A)]),
    ("stores while the file gets shorter", MAPPED + THREAD + "ftruncate(3<db>, 4096 <unfinished ...>\n101 getcwd(0x1, 9) = 9\n<... ftruncate resumed>) = 0\n101 +++ exited with 0 +++",
     {5: {0: page(A), PAGE: page(A)}, 6: {0: page(B), PAGE: b""}}, [("w", "db", 0, A), ("w", "db", 8, A), ("w", "db", 0, B)]),
    ("stores while it is cut off by its name", MAPPED + THREAD + "openat(AT_FDCWD</elsewhere>, '/r/files/db', O_WRONLY|O_TRUNC <unfinished ...>\n101 getcwd(0x1, 9) = 9\n<... openat resumed>) = 4<db>\n101 +++ exited with 0 +++",
     {5: {0: page(A)}, 6: {0: b""}}, [("w", "db", 0, A)]),
    ("an append in flight that is seen already", LONG.replace("16384", "512") + MAP + THREAD + "fcntl(3<db>, F_SETFL, O_RDWR|O_APPEND) = 0\nwrite(3<db>, 'A*512', 512 <unfinished ...>\n101 getcwd(0x1, 9) = 9\n<... write resumed>) = 512\n101 +++ exited with 0 +++",
     {7: {0: page(B, A)}}, [("w", "db", 0, B), ("w", "db", 1, A)]),
    ("a mapping from a place of the file on", LONG + "mmap(NULL, 4096, PROT_READ|PROT_WRITE, MAP_SHARED, 3<db>, 0x1000) = 0x700000\nmsync(0x700000, 4096, MS_SYNC) = 0", {4: {0: page(A), PAGE: page(B)}},
     [("w", "db", 0, A), ("w", "db", 8, B), ("fua", "db", 8, B)]),
    ("a child has the mapping", MAPPED + "fork() = 101\n101 msync(0x701000, 4096, MS_SYNC) = 0\n101 +++ exited with 0 +++", {5: {0: page(A), PAGE: page(B)}},
     [("w", "db", 0, A), ("w", "db", 8, B), ("fua", "db", 8, B)]),
    ("a child's mapping isn't its maker's", LONG + "fork() = 101\n101 " + MAP + "101 munmap(0x700000, 16384) = 0\n" + SYNC + "101 +++ exited with 0 +++", {6: {0: page(A)}}, [("w", "db", 0, A)]),
    ("a mapping that moves", MAPPED + "mremap(0x700000, 16384, 32768, MREMAP_MAYMOVE) = 0x900000\n" + SYNC + "msync(0x901000, 4096, MS_SYNC) = 0", {5: {0: page(A), PAGE: page(B)}},
     [("w", "db", 0, A), ("w", "db", 8, B), ("fua", "db", 8, B)]),
    ("a mapping that goes in part", MAPPED + "munmap(0x700000, 4096) = 0\n" + SYNC, {5: {0: page(A), PAGE: page(B)}}, [("w", "db", 0, A), ("w", "db", 8, B), ("fua", "db", 8, B)]),
    ("another mapping over it", MAPPED + "mmap(0x700000, 16384, PROT_READ, MAP_PRIVATE|MAP_FIXED|MAP_ANONYMOUS, -1, 0) = 0x700000\n" + SYNC, {5: {0: page(A)}}, [("w", "db", 0, A)]),
    ("execve takes the mapping away", MAPPED + "execve('/bin/x', ['x'], 0x7f /* 9 vars */) = 0\n" + SYNC, {4: {0: page(A)}}, [("w", "db", 0, A)]),
    ("a mapping that becomes writable", LONG + MAP.replace("|PROT_WRITE", "") + "mprotect(0x700000, 4096, PROT_READ|PROT_WRITE) = 0\n" + SYNC, {5: {0: page(A)}}, [("w", "db", 0, A), ("f",)]),
    ("a mapping for reading alone, and one that is private", OPEN.replace("O_RDWR|O_CREAT", "O_RDONLY|O_CREAT") + "mmap(NULL, 4096, PROT_READ, MAP_SHARED, 3<db>, 0) = 0x700000\nmmap(NULL, 4096, PROT_READ|PROT_WRITE, MAP_PRIVATE, 3<db>, 0) = 0x710000\ngetcwd(0x1, 9) = 9", {}, []),
    ("a hole that is made by a mapping for reading", LONG + "pwrite64(3<db>, 'A*1024', 1024, 0) = 1024\n" + MAP.replace("|PROT_WRITE", "") + "madvise(0x700000, 4096, MADV_REMOVE) = 0\nfsync(3<db>) = 0", {6: {0: page()}},
     [("w", "db", 0, A + A), ("w", "db", 0, Z + Z), ("f",)]),
    ("a file that is mapped twice", MAPPED + MAP.replace("0x700000", "0x800000") + "msync(0x800000, 4096, MS_SYNC) = 0", {5: {0: page(A), PAGE: page(B)}}, [("w", "db", 0, A), ("w", "db", 8, B), ("fua", "db", 0, A)]),
]

# The name, the text, records beside those of the row, and what is said.
REFUSED = [
    ("a call without a look", MAPPED + SYNC, {4: None}, "calls:4: .*mapped files weren't looked at before it"),
    ("a file that can't be held open", MAPPED + SYNC, {3: (b"n", b"Permission denied")}, r"calls:3: .*can't be held open \(Permission denied\); --skip"),
    ("a mapping that wasn't seen", MAPPED + SYNC, {3: None}, r"calls:3: .*can't be held open \(no look was taken\)"),
    ("DAX", MAPPED.replace("MAP_SHARED", "MAP_SHARED_VALIDATE|MAP_SYNC"), {}, "calls:3: .*MAP_SYNC makes stores durable without a call"),
    ("a process that writes where strace does", MAPPED + SYNC, {4: (b"f", b"")}, "calls:4: process 9 writes to its descriptor 4000.*fewer open files"),
    ("files that are too large", MAPPED + SYNC, {4: (b"s", b"")}, "calls:4: .*more than 64 MiB.*a smaller map"),
    ("a sync that failed", MAPPED + SYNC.replace("= 0", "= -1 EIO (Input/output error)"), {}, "calls:4: .*a sync that fails leaves nothing"),
    ("pages in another order", MAPPED + "remap_file_pages(0x700000, 4096, 0, 1, 0) = 0", {}, "calls:4: .*which pages it maps isn't followed"),
    ("a store to a sector that is written at once", MAPPED + THREAD + "pwrite64(3<db>, 'A*100', 100, 0 <unfinished ...>\n101 getcwd(0x1, 9) = 9\n<... pwrite64 resumed>) = 100\n101 +++ exited with 0 +++", {6: (b"p", page(B))},
     "calls:5: .*another call wrote the same sectors at once"),
    ("a copy of what isn't known", MAPPED + THREAD + "splice(5</x>, NULL, 3<db>, NULL, 512, 0 <unfinished ...>\n101 getcwd(0x1, 9) = 9\n<... splice resumed>) = 512\n101 +++ exited with 0 +++", {6: (b"p", page(B))},
     "calls:5: .*can't be told from what it writes"),
    ("a store after a name was changed", MAPPED + "pwrite64(3<db>, 'A*512', 512, 0) = 512\nunlink('/r/files/db') = 0\ngetcwd(0x1, 9) = 9", {6: (b"p", page(B))}, "calls:6: .*db is written after a name"),
    ("a hole in a file that nobody looks at", LONG + MAP.replace("|PROT_WRITE", "") + "madvise(0x700000, 4096, MADV_REMOVE) = 0", {4: (b"l", b"")}, "calls:4: .*a hole in a mapped file is made unseen; --mapped"),
    ("a file that nobody looks at from mprotect on", LONG + MAP.replace("|PROT_WRITE", "") + "mprotect(0x700000, 4096, PROT_WRITE) = 0", {4: (b"l", b"")}, "calls:4: .*written unseen; --mapped"),
]


def record_of(kind, at, number=0, place=0, data=b""):
    return looks.RECORD.pack(kind, at, number, place, len(data)) + data


def looks_of(text, seen, changed):
    """The records of the looks at one file of a text, from the line that maps it on. `changed` has by lines what stands in place of a
    record: nothing, or a kind with its bytes."""
    records, at, is_mapped, is_watched = b"", 0, False, False
    for number, line in enumerate(text.splitlines(keepends=True), 1):
        kind, data = changed.get(number) or (None, b"")
        is_begin = BEGIN.match(line)
        if kind in (b"f", b"s"):
            records += record_of(kind, at, 9)
        elif is_begin and is_watched and (kind or number not in changed):
            records += record_of(b"l", at) + b"".join(record_of(b"p", at, 0, place, it) for place, it in seen.get(number, {}).items())
            records += record_of(kind, at, 0, 0, data) if kind == b"p" else b""
        if is_begin and b"MAP_SHARED" in line and (kind or number not in changed):
            records += record_of(kind or b"m", at, 0, 0, data)
            is_mapped = True
        is_written = b"PROT_WRITE" in line and b"MAP_PRIVATE" not in line or b"MADV_REMOVE" in line
        if is_begin and is_mapped and is_written and not is_watched and number not in changed:
            records += record_of(b"w", at)
            is_watched = True
        if number + 0.5 in seen:
            within = at if b"resumed" in line else at + line.rindex(b")")
            records += record_of(b"l", within) + b"".join(record_of(b"p", within, 0, place, it) for place, it in seen[number + 0.5].items())
        at += len(line)
    last = record_of(b"l", at) + b"".join(record_of(b"p", at, 0, place, it) for place, it in seen.get("end", {}).items())
    return records + (last if is_watched else b"")


def followed(text, seen, changed=()):
    """What is followed of a text and the looks at it. Raises Refused."""
    text = strace(text)
    with tempfile.TemporaryDirectory() as folder:
        calls = Path(folder, "calls")
        calls.write_bytes(text)
        Path(folder, "looks").write_bytes(looks_of(text, seen, dict(changed)))
        return traced.follow(str(calls), FILES, {}, (), HERE, MARKS)


def row_fault(name, text, seen, entries, more=""):
    """What is wrong with what is made of a text and the looks at it."""
    try:
        tracing = followed(text + more, seen)
    except Refused as refused:
        return f"{name}: refused: {refused}"
    found = entries_of(tracing)
    if found != entries:
        return f"{name}: {found}"
    is_said = any("db is mapped: its bytes are known at each call" in it for it in tracing.notes)
    return None if is_said == bool(seen) else f"{name}: {tracing.notes}"


def refused_fault(name, text, changed, says):
    """What is wrong with how a text is refused."""
    try:
        return f"{name}: it isn't refused: {entries_of(followed(text, {}, changed))}"
    except Refused as refused:
        return None if re.match(says, str(refused)) else f"{name}: {refused}"


def held_fault():
    """What is wrong with the pages that are seen of a file with holes, that gets shorter and longer."""
    found = []
    with tempfile.NamedTemporaryFile() as file:
        held = looks.Held(0, file.fileno())
        steps = [
            ("empty", lambda: None, []),
            ("a hole", lambda: file.truncate(1 << 30), []),
            ("far", lambda: os.pwrite(file.fileno(), A, (1 << 29) + PAGE), [((1 << 29) + PAGE, page(A))]),
            ("again", lambda: None, []),
            ("two", lambda: os.pwrite(file.fileno(), A + bytes(PAGE - SECTOR) + B, PAGE), [(PAGE, page(A)), (2 * PAGE, page(B))]),
            ("shorter", lambda: file.truncate(PAGE + 100), [(PAGE, A[:100]), (2 * PAGE, b""), ((1 << 29) + PAGE, b"")]),
            ("longer", lambda: file.truncate(PAGE * 2), []),
        ]
        for name, act, wanted in steps:
            act()
            pages = list(held.changed())
            found += [] if pages == wanted else [f"{name}: {[(at, len(it)) for at, it in pages]}"]
    return f"a file that is held: {found}" if found else None


# Programs

NO_SECCOMP = """
import ctypes, os, struct, sys
steps = b"".join(struct.pack("=HBBI", *it) for it in ((0x20, 0, 0, 0), (0x15, 0, 1, NUMBER), (6, 0, 0, 0x50001), (6, 0, 0, 0x7FFF0000)))
text = ctypes.create_string_buffer(steps)
program = ctypes.create_string_buffer(struct.pack("@HP", 4, ctypes.addressof(text)))
library = ctypes.CDLL(None)
library.prctl(38, 1, 0, 0, 0)
assert library.prctl(22, 2, program) == 0
os.execvp(sys.argv[1], sys.argv[1:])
"""


def recorded(out, *words, before=(), options=("--files", "ordered")):
    done = subprocess.run([*before, sys.executable, RECORD, "--mapped", *options, out, "--", *words], capture_output=True, text=True)
    return done.returncode, done.stdout + done.stderr


def image_fault(out):
    """What is wrong with the image in which all arrived: its files aren't those that were left."""
    image = bytearray(Path(out, "base.img").read_bytes())
    for it in entries_in(Path(out, "writes.log").read_bytes()):
        image[SECTOR * it.sector : SECTOR * it.sector + len(it.data)] = it.data
    Path(out, "image").write_bytes(image)
    found, left = named_layout.read_map(Path(out, "files.txt").read_text()), Path(out, "files", "db").read_bytes()
    with tempfile.TemporaryDirectory() as room, open(out / "image", "rb") as stream:
        named_layout.Image(stream, found).lay_out(room)
        return None if Path(room, "db").read_bytes() == left else "the image in which all arrived has another file"


def program_fault(folder, word, check):
    """What is wrong with a recording of a program, `check` of its entries too."""
    out = Path(folder, word)
    status, said = recorded(out, Path(folder, "stores"), word)
    if status or "db is mapped" not in said:
        return f"{word}: {status}: {said}"
    entries = entries_in((out / "writes.log").read_bytes())
    wrong = image_fault(out) or (None if check(entries) else [(it.sector, it.flags, it.data[:4]) for it in entries])
    return wrong and f"{word}: {wrong}"


def sees_threads(entries):
    """Whether each store of the threads was durable before the next one of its thread."""
    ends = {it.data[:10].rstrip(b"\0") for it in entries}
    return all(bytes(range(97, 97 + count)) in ends for count in range(1, 11)) and any(it.data[:1] == b"c" for it in entries)


def sees_orders(entries):
    """Whether what stood there between two calls is nowhere, as the note says."""
    return not any(it.data[:1] == b"\1" and it.data[1:2] == b"\0" and at < len(entries) for at, it in enumerate(entries) if it.sector == min(one.sector for one in entries if one.data[:1] == b"\2"))


def programs_faults(folder):
    """What is wrong with recordings of programs."""
    done = subprocess.run(["cc", "-O1", "-w", "-static", "-pthread", "-o", Path(folder, "stores"), TOP / "tests/programs/stores.c"], capture_output=True, text=True)
    if done.returncode:
        print(f"programs aren't recorded: no C compiler that links statically: {done.stderr.strip()[:200]}")
        return []
    inner = [sys.executable, RECORD, "--mapped", Path(folder, "inner"), "--", "true"]
    return [
        program_fault(folder, "threads", sees_threads),
        program_fault(folder, "orders", sees_orders),
        program_fault(folder, "sizes", lambda entries: True),
        said_fault("a descriptor that is taken", recorded(Path(folder, "taken"), Path(folder, "stores"), "taken"), r"calls:\d+: process \d+ writes to its descriptor 4000"),
        said_fault("a listener above", recorded(Path(folder, "outer"), *inner), "no listener for it: Device or resource busy; .*GDBM_NOMMAP.*the guest"),
        said_fault("a program that isn't there", recorded(Path(folder, "none"), "/no/program"), "/no/program: No such file or directory"),
    ]


def said_fault(name, done, says):
    return None if done[0] in (1, 2) and re.search(says, done[1]) else f"{name}: {done}"


def forbidden_fault(folder, numbers):
    """What is wrong where seccomp is forbidden: it is refused, with what to do."""
    before = [sys.executable, "-c", NO_SECCOMP.replace("NUMBER", str(numbers[1]))]
    says = "no listener for it: Operation not permitted; .*GDBM_NOMMAP of gdbm, TDB_NOMMAP.*MDB_WRITEMAP.*the guest"
    return said_fault("seccomp is forbidden", recorded(Path(folder, "forbidden"), "true", before=before), says)


def live_faults():
    """What is wrong with programs that are recorded here, and why they aren't."""
    from commands.record import listening

    machine = listening.MACHINES.get(os.uname().machine)
    if not shutil.which("strace") or not machine:
        print("programs aren't recorded: " + ("no strace" if machine else f"{os.uname().machine} isn't known"))
        return []
    with tempfile.TemporaryDirectory() as folder:
        status, said = recorded(Path(folder, "first"), "sh", "-c", "echo >$FILES/db")
        if status:
            print(f"programs aren't recorded: {said.strip()}")
            return [said_fault("no seccomp", (status, said), "no listener for it: .*GDBM_NOMMAP.*the guest")]
        return [forbidden_fault(folder, machine), *programs_faults(folder)]


def main():
    found = [row_fault(*it) for it in FOLLOWED] + [refused_fault(*it) for it in REFUSED] + [held_fault()] + live_faults()
    for line in found:
        if line:
            print("FAILED", line)
    failed = sum(1 for it in found if it)
    print(f"{len(found) - failed} passed, {failed} failed")
    return 1 if failed else 0


if __name__ == "__main__":
    sys.exit(main())
