#!/usr/bin/env python3
"""Tests commands/record/trace_log.py: the logs that it makes of traces, and the traces that it refuses.

    python3 tests/gate/trace_log.py [SEED COUNT]

SEED and COUNT are those of the random traces.

It needs Python alone, and no built program; tests/rows/recording.py has the program read such logs. Expected logs are
encoded by notation.py. Whatever stands in a trace, there is a log or a line that refuses it, in little time and memory. Prints a line for each test that failed, and last `N passed, M failed`.
"""
import io
import itertools
import os
import random
import re
import resource
import signal
import stat
import struct
import subprocess
import sys
import tempfile
import time
from concurrent.futures import ThreadPoolExecutor
from pathlib import Path

sys.dont_write_bytecode = True

import rooms

rooms.enter()

from model import Run
from notation import DISCARD, FLUSH, FUA, MARK, METADATA, SECTOR, TOP, D, Entry, F, M, S, W, header, log, random_entry, super_block
from rows.recording import entries_of

from commands.record import trace_log

TOOL = TOP / "commands/record/trace_log.py"
# How long a run may take, in seconds, and how much memory, in bytes.
SECONDS, MEMORY = 60, 2 << 30
NUMBERS = itertools.count()

# Two sectors of different bytes and one more byte, and a log of all kinds of entries.
DATA = b"\x01" * SECTOR + b"\x02" * SECTOR + b"\x03"
TAKEN = [W(0, 1, 0xAA), D(1, 2), M("taken"), Entry(flags=FLUSH | METADATA), W(3, 1, 0xBB, FUA)]

FILES = {
    "data": DATA,
    "taken.log": log(TAKEN) + b"after the last entry",
    "short": log(TAKEN)[:-1],
    "headless": super_block(2) + header(),
    "empty": b"",
    "version": super_block(0, version=2),
    "sectors": super_block(0, sector_size=4096),
    "magic": super_block(0, magic=b"rhswfsj1"),
    "flags": super_block(1) + header(flags=32),
    "marked": super_block(1) + header(flags=MARK | DISCARD),
    "length": super_block(1) + header(data_len=1),
    "far": log([F, W(16384, 1, 0)]),
    "inner/deep": DATA,
    "../outside": DATA,
}

# Links, what stands after each, and files with that many zeros after some bytes.
LINKS = {"within": "inner/deep", "inner/up": "../data", "around": "../at/data", "out": "../outside", "out.log": "/dev/zero", "loop": "loop", "round": ".."}
HOLES = {
    "huge": (b"", 1 << 40),
    "endless.log": (super_block(2**64 - 1), 1 << 30),
    "long.log": (super_block(2) + header() + header(count=2_097_150), 1 << 31),
}

# The name, the trace, and the entries of its log.
MADE = [
    ("nothing", "", []),
    ("nothing said", "\n# a comment\n  \n\t# another\n", []),
    ("one of each", "write 0 1 fill 0xaa\ndiscard 0 2\nflush\nmark commit 1\n", [W(0, 1, 0xAA), D(0, 2), F, M("commit 1")]),
    ("without a last newline", "flush", [F]),
    ("lines that end as in DOS", "flush\r\nmark a b\r\nwrite 1 1 fill 3\r\n", [F, M("a b"), W(1, 1, 3)]),
    ("more space", "  write   2 1   fill 7  fua \n flush \n", [W(2, 1, 7, FUA), F]),
    ("flags", "write 2 1 fill 7 flush\ndiscard 0 1 fua\nwrite 0 1 fill 0 flush fua", [W(2, 1, 7, FLUSH), D(0, 1, FUA), W(0, 1, 0, FLUSH | FUA)]),
    ("numbers", "write 0x3fff 0x1 fill 255", [W(16383, 1, 255)]),
    ("marks", "mark\nmark \nmark  two  spaces \nmark é\n  mark # a", [M(""), M(""), M(" two  spaces "), M("é"), M("# a")]),
    ("the longest mark", f"mark {'x' * 480}", [M("x" * 480)]),
    ("data in turn", "write 0 1 data data\nwrite 5 1 data data fua", [S(0, DATA[:512]), S(5, DATA[512:1024], FUA)]),
    ("files in the folder", "write 0 1 data inner/deep\nwrite 0 1 data within\nwrite 0 1 data around\nwrite 0 1 data ./inner/../inner/up", [S(0, DATA[:512])] * 4),
    ("the end of a large file", f"write 0 1 data huge at {2**40 - 512}", [W(0, 1, 0)]),
    ("a part of a log that is too long", "log long.log 0 1\nlog endless.log 70000 70001", [Entry(), Entry()]),
    ("many files at once", "".join(f"write 0 1 data {'./' * it}data\nlog {'./' * (it % 20)}taken.log 1 2\n" for it in range(40)), [S(0, DATA[:512]), D(1, 2)] * 40),
    ("data at a place", "write 0 1 data data at 513\nwrite 1 1 data data at 0\nwrite 2 1 data data", [S(0, DATA[513:]), S(1, DATA[:512]), S(2, DATA[512:1024])]),
    ("a log", "flush\nlog taken.log\nmark end", [F, *TAKEN, M("end")]),
    ("parts of a log", "log taken.log 0 2\nmark between\nlog taken.log 2 5\nlog taken.log 5 5", [*TAKEN[:2], M("between"), *TAKEN[2:]]),
    ("65,536 entries", "flush\n" * 65536, [F] * 65536),
    ("262,144 sectors", "discard 0 16384\n" * 16, [D(0, 16384)] * 16),
    ("64 MiB but a sector", "write 0 16384 fill 1\n" * 7 + "write 0 16375 fill 2", [W(0, 16384, 1)] * 7 + [W(0, 16375, 2)]),
]

# The trace, and what is said of it after its name.
REFUSED = [
    ("writes 0 1 fill 1", "1: no line begins with writes"),
    ("flush\n\n# and\nwrite", "4: it wants SECTOR COUNT"),
    ("write 0", "1: it wants SECTOR COUNT"),
    ("discard 3", "1: it wants SECTOR COUNT"),
    ("write a 1 fill 1", "1: SECTOR is no number: a"),
    ("write -1 1 fill 1", "1: SECTOR is no number: -1"),
    ("write 0 1.5 fill 1", "1: COUNT is no number: 1.5"),
    ("write 0 0x fill 1", "1: COUNT is no number: 0x"),
    ("write 18446744073709551616 1 fill 1", "1: SECTOR isn't below 2^64: 18446744073709551616"),
    ("write 0 0 fill 1", "1: COUNT is 0"),
    ("write 4 1 fill 1", "1: it ends at sector 5, and the device has 4"),
    ("flush\ndiscard 3 2", "2: it ends at sector 5, and the device has 4"),
    ("write 0 1", "1: after COUNT it wants fill BYTE, or data FILE"),
    ("write 0 1 fill", "1: after COUNT it wants fill BYTE, or data FILE"),
    ("write 0 1 full 1", "1: after COUNT it wants fill BYTE, or data FILE"),
    ("write 0 1 fill 256", "1: BYTE is above 255: 256"),
    ("write 0 1 fill 1 fua fua", "1: it can't end with fua"),
    ("write 0 1 fill 1 now", "1: it can't end with now"),
    ("discard 0 1 fill", "1: it can't end with fill"),
    ("flush 1", "1: nothing is wanted after flush: 1"),
    ("mark a\nmark " + "é" * 241, "2: the text of a mark has at most 480 bytes, and this one 482"),
    ("write 0 1 data gone", "1: gone can't be read: No such file or directory"),
    ("write 0 1 data .", "1: . is no regular file"),
    ("write 0 3 data data", "1: it takes the bytes 0 to 1535 of data, which has 1025"),
    ("write 0 2 data data\nwrite 0 1 data data", "2: it takes the bytes 1024 to 1535 of data, which has 1025"),
    ("write 0 1 data data at", "1: after at it wants PLACE"),
    ("write 0 1 data data at 514", "1: it takes the bytes 514 to 1025 of data, which has 1025"),
    ("log", "1: it wants FILE, or FILE FIRST END"),
    ("log taken.log 1", "1: it wants FILE, or FILE FIRST END"),
    ("log taken.log 3 2", "1: taken.log has 5 entries, so none from 3 up to 2"),
    ("log taken.log 0 6", "1: taken.log has 5 entries, so none from 0 up to 6"),
    ("flush\nlog empty", "2: the log has 0 bytes, and a super block 512"),
    ("log magic", f"1: the log's magic number is {int.from_bytes(b'rhswfsj1', 'little')}, and not {0x6A736677736872}"),
    ("log version", "1: the log's version is 2, and not 1"),
    ("log sectors", "1: the log's sector size is 4096, and not 512"),
    ("log headless", "1: entry 1 of 2 of the log isn't there"),
    ("log short", "1: the data of entry 4 of the log isn't there"),
    ("log flags", "1: entry 0 of the log: the flags are 32"),
    ("log marked", "1: entry 0 of the log: it is a mark with sectors, with another flag, or with a text that is too long"),
    ("log length", "1: entry 0 of the log: its data_len is 1, and it is no mark"),
    ("log far", "1: entry 1 of the log: it ends at sector 16385, and the device has 4"),
    ("flush\n" * 65537, "65537: a log has at most 65536 entries"),
    (b"flush\n\xff\n", "2: it is no text in UTF-8"),
    ("write 0 1 data /dev/zero", "1: /dev/zero is an absolute path: give --outside"),
    ("log /dev/zero", "1: /dev/zero is an absolute path: give --outside"),
    ("write 0 1 data ../outside", "1: ../outside leads out of the trace's folder: give --outside"),
    ("write 0 1 data inner/../../outside", "1: inner/../../outside leads out of the trace's folder: give --outside"),
    ("flush\nwrite 0 1 data out", "2: out leads out of the trace's folder: give --outside"),
    ("write 0 1 data round/outside", "1: round/outside leads out of the trace's folder: give --outside"),
    ("log out.log", "1: out.log leads out of the trace's folder: give --outside"),
    ("write 0 1 data loop", "1: loop can't be read: Too many levels of symbolic links"),
    ("write 0 1 data pipe", "1: pipe is no regular file"),
    ("log pipe 0 1", "1: pipe is no regular file"),
    ("log inner", "1: inner is no regular file"),
    ("write 0 1 data data/deep", "1: data/deep can't be read: Not a directory"),
    ("write 0 1 data a\0b", "1: no file has a name with a NUL byte: a\\x00b"),
    ("write 0 1 data " + "x" * 300, f"1: {'x' * 300} can't be read: File name too long"),
    ("fl\0ush", "1: no line begins with fl\\x00ush"),
    ("\x1b[2J\x85 1", "1: no line begins with \\x1b[2J\\x85"),
    ("flush \u2028", "1: nothing is wanted after flush: \\u2028"),
    ("write 0 1 fill " + "9" * 5000, f"1: BYTE is no number: {'9' * 5000}"),
    ("write 0 1 data data at 9223372036854775807", "1: it takes the bytes 9223372036854775807 to 9223372036854776318 of data, which has 1025"),
    ("write 0 1 data data at 0xffffffffffffffff", "1: it takes the bytes 18446744073709551615 to 18446744073709552126 of data, which has 1025"),
    ("log taken.log 0xffffffffffffffff 0xffffffffffffffff", "1: taken.log has 5 entries, so none from 18446744073709551615 up to 18446744073709551615"),
    ("log endless.log", "1: a log has at most 65536 entries"),
    ("log huge", f"1: the log's magic number is 0, and not {0x6A736677736872}"),
    ("#" * 8193, "1: a line has at most 8192 bytes"),
    ("\n" + "#" * 8192 + "\n" + " " * 8193, "3: a line has at most 8192 bytes"),
    (("#" * 8000 + "\n") * 8400, "8388: a trace has at most 67108864 bytes and 1048576 lines"),
    ("\n" * 1048577, "1048577: a trace has at most 67108864 bytes and 1048576 lines"),
]

# Traces that are refused with --outside.
REFUSED_OUTSIDE = [
    ("write 0 1 data /dev/zero", "1: /dev/zero is no regular file"),
    ("log /dev/zero", "1: /dev/zero is no regular file"),
    ("log out.log", "1: out.log is no regular file"),
    ("write 0 1 data pipe", "1: pipe is no regular file"),
    ("write 0 1 data ..", "1: .. is no regular file"),
]

# Traces that are refused on the largest device.
REFUSED_LARGE = [
    ("discard 0 16384\n" * 16 + "discard 0 1\n", "17: a log has at most 262144 sectors written or discarded"),
    ("write 0 16384 fill 1\n" * 7 + "write 0 16376 fill 2\n", "8: a log has at most 67108864 bytes"),
    ("write 0 16385 fill 1", "1: it ends at sector 16385, and the device has 16384"),
    ("write 0 16384 data huge\n" * 9, "8: a log has at most 67108864 bytes"),
]


def run(folder, *words, given=None, **how):
    """Runs the tool in a folder, without what this Python has beside its own library, which takes time."""
    how = {"stdout": subprocess.PIPE, "stderr": subprocess.PIPE, **({"stdin": subprocess.DEVNULL} if given is None else {"input": given}), **how}
    try:
        return subprocess.run([sys.executable, "-S", TOOL, *words], cwd=folder, timeout=SECONDS, **how)
    except subprocess.TimeoutExpired:
        return subprocess.CompletedProcess(words, None, b"", b"it takes too long")


def places_of():
    """Names for a trace and a log that no other call has."""
    number = next(NUMBERS)
    return f"trace.{number}", f"made.{number}"


def made(folder, name, trace, entries):
    """What is wrong with the log of a trace, through files and through pipes."""
    place, to = places_of()
    Path(folder, place).write_text(trace, newline="")
    done, piped = run(folder, place, to), run(folder, "-", "-", given=trace.encode())
    wanted = log(entries)
    if done.returncode or done.stdout or done.stderr or Path(folder, to).read_bytes() != wanted:
        return f"{name}: status {done.returncode}, {done.stderr.decode()}, or another log"
    if piped.returncode or piped.stderr or piped.stdout != wanted:
        return f"{name}, through pipes: status {piped.returncode}, {piped.stderr.decode()}, or another log"
    return None


def refused(folder, trace, said, *options):
    """What is wrong with the refusal of a trace."""
    place, to = places_of()
    Path(folder, place).write_bytes(trace if isinstance(trace, bytes) else trace.encode())
    Path(folder, to).write_bytes(b"untouched")
    done = run(folder, place, to, *options)
    found = done.stderr.decode()
    if done.returncode != 2 or done.stdout or found != f"trace_log: {place}:{said}\n" or Path(folder, to).read_bytes() != b"untouched":
        return f"{said[:100]}: status {done.returncode}, '{found[:2000]}', or the log was touched"
    return None


def large(folder):
    """Traces of more than a log and its device may have without --large."""
    traces = {
        "write 33554431 1 fill 7\n": [W(33554431, 1, 7)],
        "write 0 131073 fill 1\n": [W(0, 131073, 1)],
        "discard 0 2097152\nmark all\n": [D(0, 2097152), M("all")],
    }
    for trace, entries in traces.items():
        Path(folder, "trace").write_text(trace)
        done = run(folder, "trace", "made.log", "--large")
        good = not (done.returncode or done.stderr) and Path(folder, "made.log").read_bytes() == log(entries)
        yield None if good else f"{trace}: status {done.returncode}, {done.stderr.decode()}, or another log"
    Path(folder, "trace").write_text("write 33554431 2 fill 1\n")
    done = run(folder, "trace", "made.log", "--large")
    said = "trace_log: trace:1: it ends at sector 33554433, and the device has 33554432\n"
    yield None if done.returncode == 2 and done.stderr.decode() == said else f"past the largest device: '{done.stderr.decode()}'"
    yield refused(folder, "discard 0 2097153", "1: a log has at most 2097152 sectors written or discarded", "--large")
    yield refused(folder, "log long.log 0 1\nlog long.log", "2: entry 1 of the log ends after byte 1073741824, and no more of a log is read", "--large")


def others(folder):
    """Traces and logs that aren't there or aren't files, and sizes that no device has."""
    Path(folder, "trace").write_text("flush\n")
    for words, said in [
        (["gone", "made.log"], "trace_log: gone: it can't be read: No such file or directory\n"),
        (["pipe", "made.log"], "trace_log: pipe: it is no regular file; - is standard input\n"),
        (["inner", "made.log"], "trace_log: inner: it is no regular file; - is standard input\n"),
        (["/dev/zero", "made.log"], "trace_log: /dev/zero: it is no regular file; - is standard input\n"),
        ([b"go\xff\nne", "made.log"], "trace_log: go\\udcff\\nne: it can't be read: No such file or directory\n"),
        (["trace", "no/made.log"], "trace_log: no/made.log: it can't be written: No such file or directory\n"),
        (["trace", "pipe"], "trace_log: pipe: it is no regular file; - is standard output\n"),
        (["trace", "inner"], "trace_log: inner: it is no regular file; - is standard output\n"),
        (["trace", ""], "trace_log: : it is no regular file; - is standard output\n"),
        (["trace", "loop"], "trace_log: loop: it can't be written: Too many levels of symbolic links\n"),
        (["trace", "x" * 300], f"trace_log: {'x' * 300}: it can't be written: File name too long\n"),
        (["trace", "made.log", "--sectors", "0"], "a device has 1 to 16384 sectors\n"),
        (["trace", "made.log", "--sectors", "16385"], "a device has 1 to 16384 sectors\n"),
        (["trace", "made.log", "--sectors", "0", "--large"], "a device has 1 to 33554432 sectors\n"),
        (["trace", "made.log", "--sectors", "33554433", "--large"], "a device has 1 to 33554432 sectors\n"),
        (["trace", "made.log", "--sectors", "1_0"], "no number: 1_0\n"),
        (["trace", "made.log", "--sectors", "9" * 5000], f"no number: {'9' * 5000}\n"),
        (["trace", "made.log", "--out"], "unrecognized arguments: --out\n"),
        (["trace"], "the following arguments are required: log\n"),
    ]:
        done = run(folder, *words)
        good = done.returncode == 2 and done.stderr.decode().endswith(said)
        yield None if good else f"{words}: status {done.returncode}, '{done.stderr.decode()}'"


def streams(folder):
    """Traces from pipes and devices, and logs that can't be written: a line each, and no half of a log."""
    Path(folder, "trace").write_text("write 0 16384 fill 1\n" * 7)
    Path(folder, "made.log").write_bytes(b"untouched")
    full, zero = open("/dev/full", "wb"), open("/dev/zero", "rb")
    unread, unread_end = os.pipe()
    os.close(unread)
    short = lambda: resource.setrlimit(resource.RLIMIT_FSIZE, (5000, 5000))
    narrow = lambda: resource.setrlimit(resource.RLIMIT_AS, (50 << 20, 50 << 20))
    for words, how, said in [
        (["trace", "-"], {"stdout": full}, "-: it can't be written: No space left on device"),
        (["trace", "-"], {"stdout": unread_end}, "-: it can't be written: Broken pipe"),
        (["trace", "-"], {"preexec_fn": lambda: os.close(1)}, "-: it can't be written: Bad file descriptor"),
        (["trace", "made.log"], {"preexec_fn": short}, "made.log: it can't be written: File too large"),
        (["trace", "new.log"], {"preexec_fn": short}, "new.log: it can't be written: File too large"),
        (["trace", "made.log"], {"preexec_fn": narrow}, "trace: it can't be read: there is no memory"),
        (["-", "made.log"], {"preexec_fn": lambda: os.close(0)}, "-: it can't be read: Bad file descriptor"),
        (["-", "made.log"], {"stdin": zero}, "-:1: a line has at most 8192 bytes"),
    ]:
        done = run(folder, *words, **how)
        good = done.returncode == 2 and not done.stdout and done.stderr.decode() == f"trace_log: {said}\n"
        yield None if good else f"{said}: status {done.returncode}, '{done.stderr.decode()}'"
    for line, said in (("flush", "65537: a log has at most 65536 entries"), ("#" * 3000, "22363: a trace has at most 67108864 bytes and 1048576 lines")):
        endless = subprocess.Popen(["yes", line], stdout=subprocess.PIPE)
        done = run(folder, "-", "made.log", stdin=endless.stdout)
        endless.stdout.close()
        endless.wait()
        yield None if done.stderr.decode() == f"trace_log: -:{said}\n" else f"an endless trace: '{done.stderr.decode()}'"
    # On a signal nothing is left, and nothing said.
    call = subprocess.Popen([sys.executable, "-S", TOOL, "-", "made.log"], cwd=folder, stdin=subprocess.PIPE, stdout=subprocess.PIPE, stderr=subprocess.PIPE)
    catches = lambda: int(re.search(r"^SigCgt:\s*(\w+)", Path(f"/proc/{call.pid}/status").read_text(), re.M)[1], 16)
    for _ in range(1000):
        if catches() >> signal.SIGTERM - 1 & 1:
            break
        time.sleep(0.01)
    call.send_signal(signal.SIGINT)
    printed = call.communicate()
    yield None if (call.returncode, *printed) == (2, b"", b"") else f"a signal: status {call.returncode}, {printed}"
    left = [it.name for it in Path(folder).iterdir() if it.name.startswith((".trace_log", "new"))]
    yield None if not left and Path(folder, "made.log").read_bytes() == b"untouched" else f"left is {left}, or the log was touched"


def places(folder):
    """Where a log is written: through a link, with the mode that the file had, or the usual one."""
    Path(folder, "trace").write_text("flush\n")
    Path(folder, "made.log").chmod(0o640)
    os.symlink("made.log", Path(folder, "link"))
    done = run(folder, "trace", "link")
    mode = stat.S_IMODE(Path(folder, "made.log").stat().st_mode)
    good = not done.returncode and Path(folder, "link").is_symlink() and Path(folder, "made.log").read_bytes() == log([F]) and mode == 0o640
    yield None if good else f"through a link: status {done.returncode}, mode {mode:o}, '{done.stderr.decode()}'"
    done = run(folder, "trace", "./-new.log", umask=0o027)
    mode = stat.S_IMODE(Path(folder, "-new.log").stat().st_mode)
    yield None if not done.returncode and mode == 0o640 else f"a new log: status {done.returncode}, mode {mode:o}, '{done.stderr.decode()}'"
    top = Path(folder).resolve().parent
    Path(folder, "trace").write_text(f"write 0 1 data {top}/outside\nwrite 0 1 data ../outside at 0\nwrite 0 1 data out at 0\nlog {folder}/taken.log 0 1\n")
    done = run("/", f"{folder}/trace", f"{folder}/made.log", "--outside")
    good = not done.returncode and Path(folder, "made.log").read_bytes() == log([S(0, DATA[:512])] * 3 + TAKEN[:1])
    yield None if good else f"with --outside: status {done.returncode}, '{done.stderr.decode()}'"
    Path(folder, "inner/trace").write_text("write 0 1 data deep\n")
    done = run(folder, "inner/trace", "made.log")
    good = not done.returncode and Path(folder, "made.log").read_bytes() == log([S(0, DATA[:512])])
    yield None if good else f"a trace in another folder: status {done.returncode}, '{done.stderr.decode()}'"


# A trace, and the entries that it becomes with `--split 2`.
SPLIT = [
    ("writes within a page, and no writes", "write 0 1 fill 1 flush fua\nwrite 2 2 fill 2 fua\nflush\nmark a\ndiscard 0 4 fua", [W(0, 1, 1, FLUSH | FUA), W(2, 2, 2, FUA), F, M("a"), D(0, 4, FUA)]),
    ("a write of more pages", "write 1 3 fill 1", [W(1, 1, 1), W(2, 2, 1)]),
    ("two sectors of two pages", "write 1 2 data data", [S(1, DATA[:512]), S(2, DATA[512:1024])]),
    ("a flush flag", "write 0 4 fill 1 flush", [W(0, 2, 1, FLUSH), W(2, 2, 1)]),
    ("FUA", "write 1 3 fill 1 fua", [W(1, 1, 1), W(2, 2, 1), W(1, 1, 1, FUA), W(2, 2, 1, FUA)]),
    ("both", "write 1 3 fill 1 fua flush", [W(1, 1, 1, FLUSH), W(2, 2, 1), W(1, 1, 1, FUA), W(2, 2, 1, FUA)]),
    ("a log", "write 0 4 fill 9\nlog wide.log 1 3", [W(0, 2, 9), W(2, 2, 9), W(1, 1, 0xAA, FLUSH | METADATA), W(2, 1, 0xAA, METADATA), D(0, 4)]),
]
WIDE = [F, W(1, 2, 0xAA, FLUSH | METADATA), D(0, 4)]
# How many random logs are split.
SPLITS = 40


def images_of(entries, by):
    """Every image of a log of a device of four sectors, whatever is lost, with its epoch and marks."""
    parts = sum(it.count if by == "sector" else 1 for it in entries)
    run = Run(entries, bound=parts, by=by)
    return {(run.epoch(it.cut), run.marks(it.cut), b"".join(it.sector(at) for at in range(4))) for it in run.images()}


def split(folder):
    """Yields what is wrong with logs that are split: each image of a log, whatever it lacks, is one of the log that it becomes."""
    Path(folder, "wide.log").write_bytes(log(WIDE))
    for name, trace, wanted in SPLIT:
        made = trace_log.made(trace, folder, 4, split=2)
        yield None if made == log(wanted) else f"split, {name}: {made!r}"
    for seed in range(SPLITS):
        chance = random.Random(seed)
        flags = ((0.2, FLUSH), (0.4, FUA))
        entries = [random_entry(chance, 4, (0.1, 0.2, 0.3), (1, 2, 3, 4), flags, lambda: bytes([chance.randrange(256)]) * SECTOR) for _ in range(4)]
        Path(folder, "random.log").write_bytes(log(entries))
        text = trace_log.made("log random.log", folder, 4, split=2)
        found = [Entry(it.sector, it.count, it.flags, it.text, it.data) for it in entries_of(text)]
        lost = [by for by in ("sector", "write") if images_of(entries, by) - images_of(found, by)]
        large = any(it.count > 2 and not it.flags & DISCARD for it in found)
        yield f"split, log {seed}: images are lost by {', '.join(lost)}, or a write is too large: {entries}" if lost or large else None
    done = run(folder, "trace", "made.log", "--split", "65537")
    yield None if done.returncode == 2 and b"a page has 1 to 65536 sectors" in done.stderr else f"--split 65537: {done}"


# Words of random traces.
WORDS = "write discard flush mark log fill data fua at 0 1 2 3 4 5 512 513 0x1 -1 255 256 1e9 18446744073709551615 18446744073709551616 # \0 é".split(" ")
WORDS += [*FILES, *LINKS, *HOLES, "pipe", "/dev/zero", "..", ".", "", "\t", "\r", "\n", "\n", "\n"]


def is_log(content, sectors):
    """Whether bytes are a log by the rules of docs/LOG-FORMAT.md, with nothing after its last entry."""
    magic, version, entries, size = struct.unpack_from("<8sQQI", content)
    at, units = SECTOR, 0
    for _ in range(entries):
        sector, count, flags, length = struct.unpack_from("<4Q", content, at)
        mark = flags & MARK
        good = flags < 32 and length <= 480 * bool(mark) and not (mark and (flags & 7 or count)) and (not count or sector + count <= sectors)
        if not good:
            return False
        at += SECTOR * (1 if flags & (DISCARD | MARK) else 1 + count)
        units += count
    return (magic, version, size) == (b"rhswfsj\0", 1, 512) and at == len(content) and entries <= 65536 and units <= 262144


def fuzzed(folder, seed, count):
    """What is wrong with random traces, and with traces of the tables that were damaged: there is a log, or it is refused."""
    source = random.Random(seed)
    good = [trace.encode() for _, trace, _ in MADE if len(trace) < 1000] + [it.encode() for it, _ in REFUSED if isinstance(it, str) and len(it) < 1000]
    for _ in range(count):
        if source.random() < 0.5:
            trace = " ".join(source.choices(WORDS, k=source.randrange(30))).encode()
        else:
            trace = bytearray(source.choice(good) + b"\n" + source.choice(good))
            for _ in range(source.randrange(4)):
                at = source.randrange(len(trace) + 1)
                trace[at : at + source.randrange(3)] = source.choice([b"", b"\0", b"\n", b" ", b"9", b"\xff", b"/", b"flush\n"])
        made = trace_log.Log(folder, 4, trace_log.Limits(4, 1 << 20, 262144, 192 << 20), source.random() < 0.5)
        try:
            trace_log.made_of(io.BytesIO(trace), made)
            if not is_log(b"".join(made.made()), 4):
                return f"what is made of {bytes(trace)!r} is no log"
        except trace_log.Refused:
            pass
        except Exception as error:
            return f"{bytes(trace)!r} ends in {error!r}"
        for file in made.sources.values():
            file.close()
    return None


def main(words):
    # A process that was started by nohup, or after a shell's &, ignores some signals, and so would what it starts.
    for number in (signal.SIGHUP, signal.SIGINT, signal.SIGTERM):
        signal.signal(number, signal.SIG_DFL)
    resource.setrlimit(resource.RLIMIT_AS, (MEMORY, MEMORY))
    with tempfile.TemporaryDirectory() as top:
        folder = Path(top, "at")
        folder.mkdir()
        os.mkfifo(folder / "pipe")
        (folder / "inner").mkdir()
        for name, content in FILES.items():
            Path(folder, name).write_bytes(content)
        for name, to in LINKS.items():
            os.symlink(to, folder / name)
        for name, (content, size) in HOLES.items():
            Path(folder, name).write_bytes(content)
            os.truncate(folder / name, size)
        calls = [(made, *it) for it in MADE] + [(refused, *it, "--sectors", "4") for it in REFUSED]
        calls += [(refused, *it) for it in REFUSED_LARGE] + [(refused, *it, "--outside") for it in REFUSED_OUTSIDE]
        with ThreadPoolExecutor(os.cpu_count()) as pool:
            found = list(pool.map(lambda it: it[0](folder, *it[1:]), calls))
        found += others(folder)
        found += streams(folder)
        found += places(folder)
        found += large(folder)
        found += split(folder)
        found += [fuzzed(folder, *map(int, words or ("7", "1000")))]
    wrong = [it for it in found if it]
    for line in wrong:
        print("FAILED", line)
    print(f"{len(found) - len(wrong)} passed, {len(wrong)} failed")
    return 1 if wrong else 0


if __name__ == "__main__":
    sys.exit(main(sys.argv[1:]))
