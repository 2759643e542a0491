"""Where in the source a call was made.

- A program in Python tells it itself (python/sitecustomize.py), as a link that it asks for.
- Of a shell script it is the line that has the words of the program which made the call, or the name of the file that the shell opened.
- For a program with debug text, as of C, C++, Rust and Go, the program is run a second time by `strace -k`, for the calls alone that
  change files, and addr2line has the line of the first frame that isn't of the C library. The calls of both runs are matched by the
  words of the program, the call, the names of its files, and their turn.
"""
import os
import re
import shutil
import struct
import subprocess
from collections import Counter
from contextlib import suppress
from dataclasses import dataclass
from pathlib import Path
from typing import NamedTuple

from commands.record.calls import HEX, MAKES, unhexed
from commands.record.mapped import STORE
from commands.record.traced import end_all
from commands.test.plain import plain

PREFIX = b"/crashbpf:"
PYTHON = str(Path(__file__).resolve().parent / "python")
# Calls whose stack is wanted, and those that tell which process runs what.
STACKS = [
    *"write writev pwrite64 pwritev pwritev2 rename renameat renameat2 link linkat symlink symlinkat unlink unlinkat rmdir mkdir mkdirat".split(),
    *"fsync fdatasync sync syncfs sync_file_range msync ftruncate truncate fallocate copy_file_range sendfile splice".split(),
]
OF_DESCRIPTOR = {"sync_file_range", "write", "writev", "pwrite64", "pwritev", "pwritev2", "fsync", "fdatasync", "syncfs", "ftruncate", "fallocate"}
OPENS = ("open", "openat", "openat2", "creat")
SHELLS = re.compile(r"(sh|dash|bash|zsh|ksh|mksh|ash|busybox)$")
PYTHONS = re.compile(r"python[\d.]*$")
# Whose frames aren't the program's.
LIBRARIES = re.compile(r"/(libc|ld-linux[\w-]*|libpthread|libstdc\+\+|libgcc_s|libm|linux-vdso|ld-musl[\w-]*)[.-][^/]*$")
FRAME = re.compile(r" > (.*?)(?:\((.*?)(?:\+0x([0-9a-f]+))?\))? \[0x([0-9a-f]+)\]$")
LINE = re.compile(r"(\d+) +(?:<\.\.\. (\w+) resumed>|(\w+)\()(.*)", re.S)
STRINGS = re.compile(rf'"({HEX})"|<({HEX})>')
# What has the line of an address. That of binutils 2.40 names another file for a function of a header that is the first of its unit.
RESOLVERS = ("llvm-addr2line", "addr2line")
SECONDS, FAR, MOST_READ = 60, 0x1000, 256 << 20
# The header of a segment of ELF, the kind of one that is loaded, and the flag of one that is run; and the size of a page.
SEGMENT, LOADED, RUN, PAGE = struct.Struct("<2I5Q"), 1, 1, 0x1000
# Whose lines aren't the program's: those of a compiler or a system, and of Go's own library, which lies below a folder that has this.
SYSTEM, OF_GO = re.compile(r"/rustc/|/usr/|.*/rustlib/src/"), "runtime/proc.go"
# How many lines of a script may be meant.
MOST_HITS = 3


def names_in(name, text, folder):
    """The names that a call has of the files of a folder, without what tells its times apart."""
    found = [(unhexed(text), unhexed(path)) for text, path in STRINGS.findall(text)]
    if name in OF_DESCRIPTOR:
        names = [path for _, path in found[:1]]
    else:
        names = [text for text, _ in found if text][:2] or [path for _, path in found][:2]
    return tuple(plain(os.fsdecode(it).replace(folder, "").strip("/")) for it in names)


@dataclass
class Frame:
    """A frame of a stack: the file of the program or library, the function, how far into it, and the place in the file."""

    path: str
    function: str
    far: int
    at: int


# A shell script


def script_of(maker, at):
    """The shell script in which a program was started: its path, and its lines; or nothing."""
    while maker is not None:
        words = [os.fsdecode(it) for it in maker.words]
        if words and SHELLS.search(words[0]):
            names = [it for it in words[1:] if not it.startswith("-")]
            path = os.path.join(at, names[0]) if names and "-c" not in words else None
            if path and os.path.isfile(path):
                with suppress(OSError, UnicodeDecodeError):
                    return path, Path(path).read_text().splitlines()
        maker = maker.parent
    return None


def script_lines(call, at):
    """The shell script in which a call was made, and its line, or the lines where several may be meant; or nothing."""
    found = script_of(call.maker, at)
    if not found or not call.maker.words:
        return None
    path, lines = found
    words = [os.fsdecode(it) for it in call.maker.words]
    names = re.findall(r'"([^"]*)"', call.told)
    if SHELLS.search(words[0]) and not words[0].endswith("mark"):
        # (the shell itself opened a file, or wrote to it: by a redirection)
        base = os.path.basename(names[0]) if names else ""
        hits = [number for number, it in enumerate(lines, 1) if base and base in it and ">" in it.partition("#")[0]]
    else:
        command = re.compile(rf"(?<![\w./-]){re.escape(os.path.basename(words[0]))}(?![\w./-])")
        scores = {number: sum(os.path.basename(it) in line for it in words[1:]) for number, line in enumerate(lines, 1) if command.search(line.partition("#")[0])}
        hits = [it for it, score in scores.items() if score == max(scores.values())]
    return (path, hits) if 0 < len(hits) <= MOST_HITS else None


# Stacks


class Segment(NamedTuple):
    """A segment of a program or library that is loaded: where its header has these words, and whether it is run; its place in the file, its
    addresses, how long it is there and in memory."""

    header: int
    is_run: bool
    first: int
    begin: int
    other: int
    length: int
    memory: int


def segments(path):
    """The segments of a program or library. None where it is no such file."""
    found = []
    with suppress(OSError, struct.error), open(path, "rb") as file:
        head = file.read(64)
        at, size, count = struct.unpack_from("<Q", head, 32)[0], *struct.unpack_from("<HH", head, 54)
        for number in range(count if head[:6] == b"\x7fELF\x02\x01" else 0):
            file.seek(at + number * size)
            kind, flags, *words = SEGMENT.unpack(file.read(SEGMENT.size))
            found += [Segment(at + number * size + 8, bool(flags & RUN), *words)] if kind == LOADED else []
    return found


def address(path, offset):
    """The address of a place in the file of a program or library, by its segments: strace tells the place, and addr2line wants the
    address. Nothing where it is no such file."""
    return next((offset - it.first + it.begin for it in segments(path) if it.first <= offset < it.first + it.length), None)


def aligned(path, out):
    """Makes a copy of a program whose code begins with a page of the file, where it doesn't, as lld has it: the stack that strace tells ends
    there else. What is loaded is the same, since the kernel loads whole pages. Not copied is one that looks for libraries beside itself, and
    one with code in the page of its headers, by which the kernel finds these. Returns whether there is a copy."""
    late = [it for it in segments(path) if it.is_run and it.first % PAGE and it.first > PAGE]
    if not late or b"$ORIGIN" in Path(path).read_bytes():
        return False
    os.makedirs(os.path.dirname(out))
    shutil.copy(path, out)
    with open(out, "r+b") as file:
        for it in late:
            more = it.first % PAGE
            file.seek(it.header)
            file.write(struct.pack("<5Q", it.first - more, it.begin - more, it.other - more, it.length + more, it.memory + more))
    return True


class Copied:
    """The words of a program for a second run, in which its file is a copy where strace wants one."""

    def __init__(self, words, at, room):
        self.words, self.name = words, words[0]
        self.path = shutil.which(words[0]) or words[0]
        self.copy = os.path.join(room, "copy", os.path.basename(words[0]))
        self.path = os.path.realpath(os.path.join(at, self.path))
        if aligned(self.path, self.copy):
            self.words = [self.copy, *words[1:]]

    def name_of(self, word):
        """A word of a program that was run, as it is in the first run."""
        return os.fsencode(self.name) if word == os.fsencode(self.copy) else word

    def path_of(self, path):
        return self.path if path == self.copy else path


def has_lines(path):
    """Whether a program has debug text with lines."""
    with suppress(OSError):
        with open(path, "rb") as file:
            data = file.read(MOST_READ)
            return data.startswith(b"\x7fELF") and b".debug_line" in data
    return False


def stacks_command(out, words, with_opens):
    """The command that runs a program and writes the stacks of its calls."""
    wanted = [*STACKS, *MAKES, "execve", *(OPENS if with_opens else ())]
    return ["strace", "-f", "-q", "-xx", "-y", "-k", "-s", "256", "--seccomp-bpf", "-e", f"trace={','.join(f'?{it}' for it in wanted)}", "-o", out, "--", *words]


def run(command, environment):
    """Runs a program, for so long as it may take. Returns whether it ended."""
    running = subprocess.Popen(command, env=environment, stdin=subprocess.DEVNULL, stdout=subprocess.DEVNULL, stderr=subprocess.DEVNULL)
    try:
        running.wait(timeout=SECONDS)
        return True
    except subprocess.TimeoutExpired:
        end_all(running)
        return False
    except BaseException:
        end_all(running)
        raise


def is_of_library(line):
    """Whether a line of source is of a compiler's or the system's own."""
    top, _, below = line.partition("/src/")
    return SYSTEM.match(line) is not None or bool(below) and os.path.isfile(os.path.join(top, "src", OF_GO))


class Stacks:
    """The stacks of a second run: of each call by the program's words, its name, and the names of its files."""

    def __init__(self, path, folder, copied):
        self.folder, self.copied, self.words, self.found, self.begun, self.last = folder, copied, {}, {}, {}, None
        with open(path, errors="replace") as lines:
            for line in lines:
                self.read(line.rstrip("\n"))

    def read(self, line):
        """Takes a line of strace: a call, or a frame of the last one."""
        frame = FRAME.match(line)
        if frame:
            if self.last is not None:
                path, function, far, at = frame.groups()
                self.last.append(Frame(self.copied.path_of(path), function or "", int(far or "0", 16), int(at, 16)))
            return
        self.last, found = None, LINE.match(line)
        if not found:
            return
        process, resumed, name, rest = int(found[1]), found[2], found[3], found[4]
        if rest.endswith("<unfinished ...>"):
            self.begun[process] = rest
            return
        if resumed:
            name, rest = resumed, self.begun.pop(process, "") + rest
        self.take(process, name, rest)

    def take(self, process, name, text):
        """Takes a call in."""
        result = text.rpartition(") = ")[2]
        if name in MAKES and result.split()[0:1] and result.split()[0].isdigit():
            self.words[int(result.split()[0])] = self.words.get(process, ())
        elif name == "execve" and result.startswith("0"):
            self.words[process] = tuple(self.copied.name_of(unhexed(it)) for it in re.findall(rf'"({HEX})"', text)[1:])
        elif not result.startswith("-1"):
            self.last = []
            self.found.setdefault(self.key(self.words.get(process, ()), name, text), []).append(self.last)

    def key(self, words, name, text):
        program = tuple(plain(os.fsdecode(it).replace(self.folder, "$FILES")) for it in words)
        return program, name, names_in(name, text, self.folder)


class Lines:
    """The places of calls in the source."""

    def __init__(self, at):
        self.at, self.stacks, self.known, self.resolved = at, None, {}, {}
        self.resolver = next((it for it in RESOLVERS if shutil.which(it)), None)

    def wants_stacks(self, log):
        """Whether a program that made a call of the log has debug text."""
        words = {it.call.maker.words[0] for it in log.entries if it.call is not None and it.call.maker and it.call.maker.words}
        paths = {shutil.which(os.fsdecode(it)) or os.path.join(self.at, os.fsdecode(it)) for it in words}
        return self.resolver is not None and any(has_lines(it) for it in paths)

    def learn(self, log, path, folder, copied):
        """Takes the stacks of a second run for the calls of a log."""
        self.stacks = Stacks(path, folder, copied)
        # (the marks lie beside the files, in both runs)
        at, here = (hexed_path(os.path.dirname(it)) for it in (os.fsdecode(log.tracing.folder), folder))
        turns, taken = Counter(), set()
        calls = [it.call for it in [*log.entries, *log.tracing.synced] if it.call is not None]
        for call in sorted([*calls, *log.tracing.opened.values()], key=lambda it: it.line):
            words = tuple(it.replace(b"$FILES", os.fsencode(self.stacks.folder)) for it in call.maker.words)
            text = call.word(0) if call.name in OF_DESCRIPTOR and call.words else call.text
            key = self.stacks.key(words, call.name, text.replace(at, here))
            found = self.stacks.found.get(key, [])
            if found and call.line not in taken:
                taken.add(call.line)
                # (where it was made less often the second time, the last one stands for it)
                self.known[call.line] = found[min(turns[key], len(found) - 1)]
                turns[key] += 1

    def lines_of(self, frame):
        """The lines of a frame, as file:line, from the innermost function that was made part of another to the one of the frame."""
        key = frame.path, frame.at
        if key not in self.resolved:
            place = address(frame.path, frame.at - 1)
            words = [self.resolver, "-i", "-e", frame.path, hex(place or 0)]
            done = subprocess.run(words, capture_output=True, text=True).stdout if place is not None else ""
            pairs = [it.partition(" (")[0].rpartition(":") for it in done.splitlines()]
            self.resolved[key] = [f"{name}:{line}" for name, _, line in pairs if line.isdigit() and line != "0" and name != "??"]
        return self.resolved[key]

    def frames(self, call):
        return [it for it in self.known.get(call.line, ()) if not LIBRARIES.search(it.path)]

    def source(self, call):
        """The file and line in which a call was made, or nothing where it isn't known, as of what was stored before it."""
        if call.name == STORE:
            return None
        if call.source:
            return call.source
        return next((it for frame in self.frames(call) for it in self.lines_of(frame) if not is_of_library(it)), None)

    def place(self, call):
        """What tells the place of a call from others: its line, or a stack without lines; or nothing."""
        frames = self.frames(call) if call.name != STORE else []
        return self.source(call) or (f"{frames[0].path}+{frames[0].at:x}" if frames else None)

    def told(self, call):
        """The place of a call as a reader sees it: a line, or the functions of a library; or nothing."""
        found = self.source(call)
        if found:
            return os.path.basename(found)
        script = script_lines(call, self.at) if call.name != STORE else None
        if script:
            return f"{os.path.basename(script[0])}:{','.join(map(str, script[1]))}"
        functions = [it.function for it in self.frames(call) if it.function and it.far < FAR and call.name != STORE]
        return f"in {functions[0]}" if functions else None

    def file_and_line(self, call):
        """The file and the line of a call, or nothing where no line is known, or several may be meant."""
        path, _, line = (self.source(call) or "").rpartition(":")
        if path and line.isdigit():
            return os.path.join(self.at, path), int(line)
        script = script_lines(call, self.at) if call.name != STORE else None
        return (script[0], script[1][0]) if script and len(script[1]) == 1 else (None, None)


def hexed_path(path):
    return "".join(f"\\x{it:02x}" for it in os.fsencode(path))
