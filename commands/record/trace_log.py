#!/usr/bin/env python3
"""Makes a log of a trace: a text that says what was written to a device, a line for each entry.

    commands/record/trace_log.py TRACE LOG [--sectors N] [--large] [--outside] [--split N]

TRACE is a text in UTF-8, LOG the file that is written, in the format of docs/LOG-FORMAT.md. N is the size of the device in
sectors of 512 bytes, 1 to 16,384, with --large to 33,554,432, and the most where it isn't given. `-` is standard input, or
standard output.

Lines, their words separated by spaces. Numbers are decimal, or hexadecimal after 0x:

    write SECTOR COUNT fill BYTE [fua] [flush]       COUNT sectors from SECTOR on, each byte BYTE
    write SECTOR COUNT data FILE [at PLACE] [fua] [flush]
                                                     the same, with the bytes of FILE from byte PLACE on; without a place,
                                                     from where the last such line of this file ended, at first from 0
    discard SECTOR COUNT [fua] [flush]
    flush                                            what was written so far is durable
    mark TEXT                                        TEXT is the rest of the line, after one space: at most 480 bytes
    log FILE [FIRST END]                             the entries FIRST to END - 1 of a log, counted from 0; without the two,
                                                     all of them

`fua` says that the entry's own data is durable as soon as it is written, `flush` that all before it is, and not its own
data. Blank lines, and lines that begin with #, say nothing. FILE has no space in its name, and is seen from the folder of
the trace (of standard input: from the folder at hand). It lies in that folder or below it, unless --outside is given: its
name isn't absolute, and neither `..` nor a symbolic link leads out. Files are regular ones, and no more of them is read
than the log has; of a log that is taken in, the headers up to END too, and nothing after 192 MiB, with
--large 1 GiB. LOG is a new file or a
regular one, and gets its name when it is whole.

With `--split 8` each write that isn't within one page of eight sectors becomes writes of a page each, in the order of their places, so that
`--by write` loses page by page, as a disk does that writes 4,096 bytes at once. A flush flag stands at the first of them
alone: at a later one it would make the first durable. A FUA write of more pages is all of its pages without FUA, and then all of them with it,
since until it has ended any of them may be lost. Discards stay whole. Each image of the log is one of the log that is split, by as many
losses of pages as the write has; N may be another number of sectors, 1 to 65,536.

A trace that can't be made a log is refused: a line on standard error, `trace_log: TRACE:LINE: what is wrong`, the status
2, and LOG isn't touched. Refused are what isn't a line of the table, numbers that are none, sectors that the device
doesn't have, files that can't be read or have fewer bytes than a line takes, and what passes a limit of a log: 65,536
entries, 262,144 sectors written or discarded in all, 64 MiB, with --large 2,097,152 and 1 GiB. So is a line of more than 8,192 bytes, and
a trace of more than 64 MiB or 1,048,576 lines. The text of a log that is taken in is read as docs/LOG-FORMAT.md says, and its
refusals have its entry in them.
"""
import argparse
import io
import os
import re
import signal
import stat
import struct
import sys
from array import array
from contextlib import suppress
from dataclasses import dataclass
from pathlib import Path

SECTOR = 512
ENTRIES = 65_536
MARK_LENGTH = 480
# The most sectors that a page of --split has.
MOST_SPLIT = 65_536
MAGIC = 0x6A736677736872
# How long a trace may be, how many lines it may have, and how long
# one may be; how many files are open at once.
TRACE = 64 << 20
LINES = 1_048_576
LINE = 8192
OPEN = 16

FLUSH, FUA, DISCARD, MARK, METADATA = 1, 2, 4, 8, 16
FLAGS = {"fua": FUA, "flush": FLUSH}


@dataclass(frozen=True)
class Limits:
    """How many sectors a device has at most, how many bytes and units a log, and how much of a log that is taken in is read, as of a
    raw log."""

    sectors: int
    length: int
    units: int
    taken: int


USUAL = Limits(16_384, 64 << 20, 262_144, 192 << 20)
LARGE = Limits(33_554_432, 1 << 30, 2_097_152, 1 << 30)


class Refused(Exception):
    """What is wrong with a line."""


def number(word, what):
    """A number of a line, below 2^64."""
    if not re.fullmatch(r"[0-9]+|0x[0-9a-fA-F]+", word) or len(word) > 40:
        raise Refused(f"{what} is no number: {word}")
    value = int(word, 16 if word.startswith("0x") else 10)
    if value >= 2**64:
        raise Refused(f"{what} isn't below 2^64: {word}")
    return value


def header(sector, count, flags, text=b""):
    """The header sector of an entry."""
    return struct.pack("<4Q", sector, count, flags, len(text)) + text.ljust(MARK_LENGTH, b"\0")


def header_fault(sector, count, flags, length, sectors):
    """What is wrong with the header of an entry of a log, or nothing."""
    if flags > 31:
        return f"the flags are {flags}"
    if flags & MARK:
        good = not flags & (FLUSH | FUA | DISCARD) and count == 0 and length <= MARK_LENGTH
        return None if good else "it is a mark with sectors, with another flag, or with a text that is too long"
    if length:
        return f"its data_len is {length}, and it is no mark"
    if count and sector + count > sectors:
        return f"it ends at sector {sector + count}, and the device has {sectors}"
    return None


def way(name, folder, outside):
    """The way from a folder to a file that a line names. Without `outside` it leads over no symbolic link, and not out."""
    if "\0" in name:
        raise Refused(f"no file has a name with a NUL byte: {name}")
    if outside:
        return [os.path.join(folder, name.encode())]
    if name.startswith("/"):
        raise Refused(f"{name} is an absolute path: give --outside")
    parts = os.path.relpath(os.path.realpath(os.path.join(folder, name.encode())), folder).split(b"/")
    if parts[0] == b"..":
        raise Refused(f"{name} leads out of the trace's folder: give --outside")
    return parts


def opened(folder, parts, links):
    """Opens a file by a way from a folder. Where it has become a symbolic link since, it is followed only if links are."""
    flags = os.O_RDONLY | os.O_CLOEXEC | (0 if links else os.O_NOFOLLOW)
    at = os.open(folder, os.O_RDONLY | os.O_CLOEXEC | os.O_DIRECTORY)
    try:
        for part in parts[:-1]:
            inner = os.open(part, flags | os.O_DIRECTORY, dir_fd=at)
            os.close(at)
            at = inner
        # (one that is no regular file may make who opens it wait)
        return os.open(parts[-1], flags | os.O_NONBLOCK | os.O_NOCTTY, dir_fd=at)
    finally:
        os.close(at)


def pieces(sector, count, flags, size):
    """What an entry with sectors becomes where each write is one of a page of `size` sectors, or 0: first sector, number of sectors, flags."""
    cuts = [sector, *range((sector // size + 1) * size, sector + count, size), sector + count] if size and count and not flags & DISCARD else []
    if len(cuts) <= 2:
        return [(sector, count, flags)]
    plain = flags & ~(FLUSH | FUA)
    found = [(first, last - first, plain) for first, last in zip(cuts, cuts[1:])]
    forced = [(first, length, plain | FUA) for first, length, _ in found] if flags & FUA else []
    return [(*found[0][:2], plain | flags & FLUSH), *found[1:], *forced]


class Source:
    """A regular file, of which pieces are read."""

    def __init__(self, name, folder, outside):
        self.name = name
        # of a log, where the entries begin that are known, and where the last of them ends
        self.starts = array("Q", [SECTOR])
        parts = way(name, folder, outside)
        self.file = self.told(opened, folder, parts, outside)
        found = os.fstat(self.file)
        self.length = found.st_size
        if not stat.S_ISREG(found.st_mode):
            self.close()
            raise Refused(f"{name} is no regular file")

    def told(self, call, *words):
        """What a call of the system answers."""
        try:
            return call(*words)
        except OSError as error:
            raise Refused(f"{self.name} can't be read: {error.strerror}") from None

    def close(self):
        os.close(self.file)

    def piece(self, start, end):
        """The bytes from `start` to before `end`, which the file has."""
        parts = []
        while start < end:
            part = self.told(os.pread, self.file, end - start, start)
            if not part:
                raise Refused(f"{self.name} has become shorter")
            parts.append(part)
            start += len(part)
        return b"".join(parts)

    def entries(self):
        """How many entries this log has, as its super block says."""
        if self.length < SECTOR:
            raise Refused(f"the log has {self.length} bytes, and a super block 512")
        magic, version, entries, size = struct.unpack("<QQQI", self.piece(0, 28))
        for name, value, wanted in (("magic number", magic, MAGIC), ("version", version, 1), ("sector size", size, SECTOR)):
            if value != wanted:
                raise Refused(f"the log's {name} is {value}, and not {wanted}")
        return entries

    def entry(self, number, sectors, taken):
        """The number of the units of an entry of this log, and where it begins and ends. Those before it were asked for."""
        start = self.starts[number]
        if start + SECTOR > self.length:
            raise Refused(f"entry {number} of {self.entries()} of the log isn't there")
        sector, count, flags, length = struct.unpack("<4Q", self.piece(start, start + 32))
        fault = header_fault(sector, count, flags, length, sectors)
        if fault:
            raise Refused(f"entry {number} of the log: {fault}")
        end = start + SECTOR * (1 if flags & (DISCARD | MARK) else 1 + count)
        if end > self.length:
            raise Refused(f"the data of entry {number} of the log isn't there")
        if end > taken:
            raise Refused(f"entry {number} of the log ends after byte {taken}, and no more of a log is read")
        if number + 1 == len(self.starts):
            self.starts.append(end)
        return count, start, end


class Log:
    """A log that is being made, and what of it counts against limits."""

    def __init__(self, folder, sectors, most, outside, split=0):
        self.folder, self.sectors, self.most, self.outside = os.path.realpath(os.fsencode(folder)), sectors, most, outside
        self.split = split
        self.parts, self.count, self.units, self.length = [], 0, 0, SECTOR
        self.ends, self.sources = {}, {}

    def room(self, units, length):
        """Counts an entry that is to come, before its bytes are there."""
        self.count += 1
        self.units += units
        self.length += length
        for name, value, limit in (
            ("entries", self.count, ENTRIES),
            ("sectors written or discarded", self.units, self.most.units),
            ("bytes", self.length, self.most.length),
        ):
            if value > limit:
                raise Refused(f"a log has at most {limit} {name}")

    def put(self, units, content):
        """Puts an entry without data after the others."""
        self.room(units, len(content))
        self.parts.append(content)

    def room_for(self, found):
        """Counts the writes that an entry becomes."""
        for _, units, _ in found:
            self.room(units, SECTOR + SECTOR * units)

    def put_pieces(self, found, data):
        """Puts the writes that an entry becomes after the others. The first of them begins where the data does."""
        for sector, count, flags in found:
            at = SECTOR * (sector - found[0][0])
            self.parts += [header(sector, count, flags), data[at : at + SECTOR * count]]

    def made(self):
        """The bytes of the log, in parts."""
        return [struct.pack("<QQQI", MAGIC, 1, self.count, SECTOR).ljust(SECTOR, b"\0"), *self.parts]

    def span(self, words):
        """The sectors that a line names."""
        if len(words) < 2:
            raise Refused("it wants SECTOR COUNT")
        sector, count = number(words[0], "SECTOR"), number(words[1], "COUNT")
        if count == 0:
            raise Refused("COUNT is 0")
        if sector + count > self.sectors:
            raise Refused(f"it ends at sector {sector + count}, and the device has {self.sectors}")
        return sector, count

    def source(self, name):
        """A file, kept open until others are asked for."""
        if name not in self.sources:
            if len(self.sources) == OPEN:
                self.sources.pop(next(iter(self.sources))).close()
            self.sources[name] = Source(name, self.folder, self.outside)
        return self.sources[name]

    def piece(self, name, start, end):
        """Bytes of a file that a line takes."""
        source = self.source(name)
        if end > source.length:
            raise Refused(f"it takes the bytes {start} to {end - 1} of {name}, which has {source.length}")
        self.ends[name] = end
        return source.piece(start, end)

    def write(self, words):
        """Adds a write, of one byte filled or of a file's bytes."""
        sector, count = self.span(words)
        length, words = SECTOR * count, words[2:]
        if len(words) < 2 or words[0] not in ("fill", "data"):
            raise Refused("after COUNT it wants fill BYTE, or data FILE")
        what, value, rest, place = *words[:2], words[2:], None
        if what == "fill":
            byte = number(value, "BYTE")
            if byte > 255:
                raise Refused(f"BYTE is above 255: {value}")
        elif rest[:1] == ["at"]:
            if len(rest) < 2:
                raise Refused("after at it wants PLACE")
            place, rest = number(rest[1], "PLACE"), rest[2:]
        flags = flags_of(rest)
        found = pieces(sector, count, flags, self.split)
        self.room_for(found)
        start = self.ends.get(value, 0) if place is None else place
        self.put_pieces(found, bytes([byte]) * length if what == "fill" else self.piece(value, start, start + length))

    def discard(self, words):
        sector, count = self.span(words)
        self.put(count, header(sector, count, DISCARD | flags_of(words[2:])))

    def flush(self, words):
        if words:
            raise Refused(f"nothing is wanted after flush: {words[0]}")
        self.put(0, header(0, 0, FLUSH))

    def mark(self, text):
        """Adds a mark with a text."""
        text = text.encode()
        if len(text) > MARK_LENGTH:
            raise Refused(f"the text of a mark has at most {MARK_LENGTH} bytes, and this one {len(text)}")
        self.put(0, header(0, 0, MARK, text))

    def log(self, words):
        """Adds the entries of another log, all or a range."""
        if len(words) not in (1, 3):
            raise Refused("it wants FILE, or FILE FIRST END")
        source = self.source(words[0])
        entries = source.entries()
        first, end = (number(words[1], "FIRST"), number(words[2], "END")) if words[1:] else (0, entries)
        if not first <= end <= entries:
            raise Refused(f"{words[0]} has {entries} entries, so none from {first} up to {end}")
        for entry in range(min(first, len(source.starts) - 1), end):
            units, start, stop = source.entry(entry, self.sectors, self.most.taken)
            if entry < first:
                continue
            found = pieces(*struct.unpack("<3Q", source.piece(start, start + 24)), self.split)
            if len(found) > 1:
                self.room_for(found)
                self.put_pieces(found, source.piece(start + SECTOR, stop))
            else:
                self.room(units, stop - start)
                self.parts.append(source.piece(start, stop))


def flags_of(words):
    """The flags that the last words of a line say."""
    flags = 0
    for word in words:
        if word not in FLAGS or flags & FLAGS[word]:
            raise Refused(f"it can't end with {word}")
        flags |= FLAGS[word]
    return flags


def put_line(log, line):
    """Puts what a line says after the others of a log."""
    kind, _, rest = line.strip(" \t\r").partition(" ")
    if kind == "mark":
        # the text is taken as it stands, spaces at its end too
        log.mark(line.lstrip(" \t").rstrip("\r").partition(" ")[2])
    elif kind in ("write", "discard", "flush", "log"):
        getattr(log, kind)(re.findall(r"[^ \t]+", rest))
    elif kind and not kind.startswith("#"):
        raise Refused(f"no line begins with {kind}")


def lines_of(stream):
    """The lines of a trace."""
    lines = length = 0
    while line := stream.readline(LINE + 1):
        lines += 1
        length += len(line)
        if len(line.removesuffix(b"\n")) > LINE:
            raise Refused(f"a line has at most {LINE} bytes")
        if length > TRACE or lines > LINES:
            raise Refused(f"a trace has at most {TRACE} bytes and {LINES} lines")
        try:
            yield line.removesuffix(b"\n").decode()
        except UnicodeDecodeError:
            raise Refused("it is no text in UTF-8") from None


def made_of(stream, log):
    """Makes the log of a trace. Raises Refused, which begins with the number of the line."""
    place = 1
    try:
        for line in lines_of(stream):
            put_line(log, line)
            place += 1
    except Refused as refused:
        raise Refused(f"{place}: {refused}") from None


def made(text, folder=Path(), sectors=USUAL.sectors, most=USUAL, split=0):
    """The log of a trace, within these limits. Raises Refused, which begins with the number of the line."""
    log = Log(folder, sectors, most, False, split)
    made_of(io.BytesIO(text.encode()), log)
    return b"".join(log.made())


def opened_trace(name):
    """The trace as a stream."""
    if name == "-":
        os.set_blocking(0, True)
        return open(0, "rb", closefd=False)
    file = os.open(name, os.O_RDONLY | os.O_NONBLOCK | os.O_NOCTTY | os.O_CLOEXEC)
    if not stat.S_ISREG(os.fstat(file).st_mode):
        raise Refused(" it is no regular file; - is standard input")
    return open(file, "rb")


def write_parts(file, parts):
    """Writes all of a log, and lets go of the file."""
    with file:
        file.writelines(parts)
        file.flush()
        if file.fileno() != 1:
            os.fsync(file.fileno())


def write_log(name, parts):
    """Writes the log: beside its place, and then in it."""
    if name == "-":
        os.set_blocking(1, True)
        return write_parts(open(1, "wb", closefd=False), parts)
    path, kept = os.path.realpath(name), None
    try:
        kept = os.stat(path).st_mode
        if not stat.S_ISREG(kept):
            raise Refused(" it is no regular file; - is standard output")
        # (the file that takes its place needs no such right)
        os.close(os.open(path, os.O_WRONLY | os.O_NONBLOCK))
    except FileNotFoundError:
        pass
    begun = os.path.join(os.path.dirname(path), f".trace_log.{os.urandom(8).hex()}")
    try:
        file = os.open(begun, os.O_WRONLY | os.O_CREAT | os.O_EXCL | os.O_CLOEXEC, 0o666)
        if kept is not None:
            os.fchmod(file, stat.S_IMODE(kept))
        write_parts(open(file, "wb"), parts)
        os.rename(begun, path)
    except BaseException:
        with suppress(OSError):
            os.unlink(begun)
        raise


def said(text):
    """Says why there is no log, in one line, and returns the status."""
    line = "".join(it if it.isprintable() else it.encode("unicode_escape").decode() for it in f"trace_log: {text}")
    with suppress(OSError):
        os.write(2, f"{line}\n".encode())
    return 2


def done(name, what, work):
    """Does the work on a file, and returns the status."""
    try:
        work()
        return 0
    except Refused as refused:
        return said(f"{name}:{refused}")
    except OSError as error:
        return said(f"{name}: it can't be {what}: {error.strerror}")
    except MemoryError:
        return said(f"{name}: it can't be {what}: there is no memory")


def sectors_of(word):
    """The number after --sectors."""
    if not re.fullmatch(r"[0-9]{1,20}", word):
        raise argparse.ArgumentTypeError(f"no number: {word}")
    return int(word)


def main():
    # Where a standard stream is closed no file gets its number: reading and writing then fail.
    for file, mode in enumerate((os.O_WRONLY, os.O_RDONLY, os.O_RDONLY)):
        try:
            os.fstat(file)
        except OSError:
            os.open(os.devnull, mode)
    parser = argparse.ArgumentParser(description="Makes a log of a trace.", epilog="The head of this file says what a trace is.", allow_abbrev=False)
    parser.add_argument("trace")
    parser.add_argument("log")
    parser.add_argument("--sectors", type=sectors_of)
    parser.add_argument("--large", action="store_true")
    parser.add_argument("--outside", action="store_true")
    parser.add_argument("--split", type=sectors_of, default=0, metavar="N", help="make each write one of a page of N sectors")
    words = parser.parse_args()
    # Not before the words are read: argparse imports a module on its way, and an end that is asked for in an import can be passed over.
    for number in (signal.SIGHUP, signal.SIGINT, signal.SIGTERM):
        if signal.getsignal(number) != signal.SIG_IGN:
            signal.signal(number, lambda *_: sys.exit(2))
    limits = LARGE if words.large else USUAL
    sectors = limits.sectors if words.sectors is None else words.sectors
    if not 1 <= sectors <= limits.sectors:
        parser.error(f"a device has 1 to {limits.sectors} sectors")
    if words.split > MOST_SPLIT:
        parser.error(f"a page has 1 to {MOST_SPLIT} sectors")
    folder = "." if words.trace == "-" else os.path.dirname(words.trace) or "."
    log = Log(folder, sectors, limits, words.outside, words.split)
    return done(words.trace, "read", lambda: made_of(opened_trace(words.trace), log)) or done(
        words.log, "written", lambda: write_log(words.log, log.made())
    )


if __name__ == "__main__":
    sys.exit(main())
