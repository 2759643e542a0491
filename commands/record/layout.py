"""Where files lie on the device of a log, the log itself, and the map of both.

Each file has a range of sectors of its own, as long as the largest size that it gets. A range begins at a multiple of eight
sectors, and after each file at least one sector is free, which nobody writes: it is zeros in each image. A file that is a device
by itself has exactly its sectors, so that what lies at its end is found there.

Three files say where: `files.txt`, which crashbpf-files reads, `files.h` for checkers in C, and what is printed.
"""
import re
import struct
from dataclasses import dataclass, replace

from commands.record import trace_log
from commands.record.calls import Refused
from commands.record.disk import FLUSH, FUA, MARK, SECTOR

ALIGNED = 8
HEAD = "crashbpf files 1"


@dataclass(frozen=True)
class Place:
    """Where a file lies: its name, its first sector, the number of its sectors, its length in bytes."""

    name: bytes
    first: int
    sectors: int
    length: int


def escaped(name):
    """A name as the map has it: in one word, each other byte as \\xNN."""
    return "".join(chr(it) if 33 <= it <= 126 and it != 92 else f"\\x{it:02x}" for it in name)


def unescaped(text):
    return re.sub(rb"\\x([0-9a-f]{2})", lambda it: bytes([int(it[1], 16)]), text.encode())


def places(sizes, is_device=False, unit=SECTOR):
    """Lays files out, a map of names to sizes. Returns the places, and the number of sectors of the device.

    With `is_device` there is one file, of whole sectors, and it is the device. What is written of a file has whole units.
    """
    if is_device:
        ((name, size),) = sizes.items()
        return [Place(name, 0, size // SECTOR, size)], size // SECTOR
    found, at = [], 0
    for name in sorted(sizes):
        sectors = -(-sizes[name] // SECTOR)
        found.append(Place(name, at, sectors, sizes[name]))
        at += -(-(-(-sizes[name] // unit) * unit // SECTOR + 1) // ALIGNED) * ALIGNED
    return found, max(at, ALIGNED)


def limits_of(sectors):
    """The limits that a log of a device with that number of sectors has."""
    limits = trace_log.USUAL if sectors <= trace_log.USUAL.sectors else trace_log.LARGE
    if sectors > limits.sectors:
        raise Refused(f"the files take {sectors} sectors, and a device has at most {limits.sectors}")
    return limits


def is_large(sectors, entries, units, length):
    """Whether a log of that many entries, sectors written and bytes takes --large. One that is too long is refused."""
    most = limits_of(sectors)
    if length > most.length or units > most.units:
        most = trace_log.LARGE
    counts = (("entries", entries, trace_log.ENTRIES), ("sectors written", units, most.units), ("bytes", length, most.length))
    for what, value, limit in counts:
        if value > limit:
            raise Refused(f"the log has {value} {what}, and a log has at most {limit}, with --large too: record less, or in parts, each with the `files` of the one before as --base")
    return most is trace_log.LARGE


def with_flags(entries):
    """Entries in which a flush right before a write is a flag of the write. Between the two is one cut less, at which a crash leaves what
    it leaves after the write where that is lost, or before the flush where nothing is."""
    found, flush = [], []
    for it in entries:
        if flush and it.count:
            it, flush = replace(it, flushes=True), []
        found += flush
        flush = [it] if it.kind == FLUSH else []
        found += [] if flush else [it]
    return found + flush


def fitting(entries, most=trace_log.ENTRIES):
    """The entries as they stand, or where a log can't have as many with the flushes at the writes. Returns them with what is to be said."""
    if len(entries) <= most:
        return entries, []
    found = with_flags(entries)
    return found, [f"each flush right before a write is a flag of it, so that {len(entries)} entries are {len(found)}"]


def log_of(entries, firsts, sectors):
    """The log of entries, in parts, and whether it takes --large. `firsts` says where each file begins."""
    parts, units, length = [], 0, SECTOR
    for it in entries:
        if it.kind == MARK:
            parts.append(trace_log.header(0, 0, MARK, it.data))
        elif it.kind == FLUSH:
            parts.append(trace_log.header(0, 0, FLUSH))
        else:
            flags = it.kind & FUA | (FLUSH if it.flushes else 0)
            parts += [trace_log.header(firsts[it.file] + it.sector, it.count, flags), it.data]
        units += it.count
        length += SECTOR * (1 + it.count)
    large = is_large(sectors, len(entries), units, length)
    return [struct.pack("<QQQI", trace_log.MAGIC, 1, len(entries), SECTOR).ljust(SECTOR, b"\0"), *parts], large


def map_text(found, sectors):
    """The map as a text."""
    lines = [HEAD, f"sectors {sectors}"]
    lines += [f"first {it.first} sectors {it.sectors} length {it.length} name {escaped(it.name)}" for it in found]
    return "\n".join([*lines, "end", ""])


LINE = re.compile(r"first (\d{1,7}) sectors (\d{1,7}) length (\d{1,10}) name (\S{1,4096})")


def read_map(text):
    """The places that a map has, and the number of sectors of its device. What is no map is refused with its line."""
    lines = text.split("\n")
    size = re.fullmatch(r"sectors (\d{1,7})", lines[1]) if len(lines) > 1 else None
    if lines[0] != HEAD or not size:
        raise Refused("1: it is no map of files")
    if lines[-2:] != ["end", ""]:
        raise Refused(f"{len(lines)}: it is cut off")
    found, free, sectors = [], 0, int(size[1])
    for number, line in enumerate(lines[2:-2], 3):
        it = LINE.fullmatch(line)
        if not it:
            raise Refused(f"{number}: no line of a map")
        first, count, length, name = int(it[1]), int(it[2]), int(it[3]), unescaped(it[4])
        if first < free or first + count > sectors or not SECTOR * (count - 1) < length <= SECTOR * count and (count or length):
            raise Refused(f"{number}: its sectors aren't its own, or its length isn't theirs")
        parts = name.split(b"/")
        if b"\0" in name or any(it in (b"", b".", b"..") for it in parts) or any(name == it.name for it in found):
            raise Refused(f"{number}: no name of a file below a folder")
        found.append(Place(name, first, count, length))
        free = first + count
    return found, sectors


def words_of(names):
    """For each name a word that C and its macros can take, each once."""
    taken, words = set(), []
    for name in names:
        word = re.sub(r"\W", "_", name.decode("ascii", "replace"), flags=re.A)
        word = f"file_{word}" if word[:1].isdigit() or word in ("", "check", "file") else word
        while word.lower() in taken:
            word += "_"
        taken.add(word.lower())
        words.append(word)
    return words


HEADER = """\
/*
 * Where recorded files lie on the device of their log. Made by crashbpf-record; for checkers in C, beside checker.h.
 *
 * Of a file {one} with its {ONE}_FIRST sector and {ONE}_LENGTH bytes, {one}_u32_at(at) reads the number at byte `at`
 * of the file, as u32_at does of the device; so do {one}_u8_at, _u16_at, _u64_at, and those that end in _be. Bytes
 * past the end of the file read as 0. SECTOR({ONE}_FIRST + n, otherwise) is its sector n.
 */
#ifndef FILES_H
#define FILES_H

#include "checker.h"

/* After each file a sector is free and zeros, or the device ends, so a number that begins within a file never ends in another. */
#define FILE_READ_(name, start, length, kind, read) \\
	INLINED kind name##_##read(u64 at) {{ return at < (length) ? read((start) + at) : 0; }}
#define FILE_READS_(name, start, length) \\
	FILE_READ_(name, start, length, u8, u8_at) \\
	FILE_READ_(name, start, length, u16, u16_at) \\
	FILE_READ_(name, start, length, u32, u32_at) \\
	FILE_READ_(name, start, length, u64, u64_at) \\
	FILE_READ_(name, start, length, u16, u16_at_be) \\
	FILE_READ_(name, start, length, u32, u32_at_be) \\
	FILE_READ_(name, start, length, u64, u64_at_be)
"""


def header_text(found):
    """The map as a header for C."""
    words = words_of(it.name for it in found)
    one = words[0] if words else "name"
    text = HEADER.format(one=one, ONE=one.upper())
    for word, it in zip(words, found):
        big = word.upper()
        text += f"\n/* {escaped(it.name).replace('*/', '*_/')} */\n#define {big}_FIRST {it.first}ull\n#define {big}_LENGTH {it.length}ull\n"
        text += f"FILE_READS_({word}, {SECTOR} * {big}_FIRST, {big}_LENGTH)\n"
    return f"{text}\n#endif\n"


def image_of(found, contents, sectors):
    """The device that holds these files."""
    image = bytearray(SECTOR * sectors)
    for it in found:
        content = contents[it.name]
        image[SECTOR * it.first : SECTOR * it.first + len(content)] = content
    return bytes(image)
