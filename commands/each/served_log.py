"""The crash images of a log, sector by sector: what a cut and a choice leave, from the log's own bytes and those of the base.

A log is mapped and not read, and no image is made. docs/LOG-FORMAT.md says what a log is, and docs/CRASH-MODEL.md what a crash leaves.
crashbpf has tested the log before.
"""
import mmap
import os
import re
import struct
from bisect import bisect_left

SECTOR = 512
HEADER = struct.Struct("<4Q")
NUMBER_OF_ENTRIES = struct.Struct("<16xQ")
FLUSH, FUA, DISCARD, MARK = 1, 2, 4, 8
ZEROS = bytes(SECTOR)
WHOLE = "whole"
# Entries are looked up by blocks of this many sectors.
BLOCK = 8
N = r"(0|[1-9]\d*)"
PART = re.compile(rf"{N}(?:\.{N})?:(drop|head[1-7]|tail[1-7])", re.A)


def kept(fate, size):
    """Which bytes of a part of `size` bytes reach the device: from the first of two positions to before the second."""
    if fate == "drop":
        return 0, 0
    some = size // 8 * int(fate[-1])
    return (0, some) if fate.startswith("head") else (size - some, size)


def fates_of(choice):
    """Returns the parts of a choice, as a line has it, each with its fate; None where it has another form. A part is its entry, with the place
    of its sector there or, by write, None."""
    found = [] if choice == "-" else list(map(PART.fullmatch, choice.split(",")))
    if None in found:
        return None
    return [((int(it[1]), None if it[2] is None else int(it[2])), it[3]) for it in found]


def name_of(part):
    entry, place = part
    return f"{entry}" if place is None else f"{entry}.{place}"


def text_of(fates):
    """Returns a choice as a line has it, by the fates of those parts that aren't whole."""
    return ",".join(f"{name_of(part)}:{fate}" for part, fate in fates.items()) or "-"


def mapped(path):
    """Returns the bytes of a file, mapped; of none, or of an empty one, no bytes."""
    if path is None:
        return b""
    file = os.open(path, os.O_RDONLY | os.O_CLOEXEC)
    try:
        return mmap.mmap(file, 0, access=mmap.ACCESS_READ) if os.fstat(file).st_size else b""
    finally:
        os.close(file)


class LogImages:
    """A log, of which images are looked up. `flushes` are the entries before which a flush is added. `view` tells images apart that a program
    sees in another way: here there is none."""

    view = None

    def __init__(self, path, base, sectors, by_write, flushes=()):
        self.bytes, self.base, self.sectors, self.by_write = mapped(path), mapped(base), sectors, by_write
        self.entries, self.blocks, self.known_covers = [], {}, {}
        self.flushes, self.marks = [0], [0]
        (count,) = NUMBER_OF_ENTRIES.unpack_from(self.bytes)
        at = SECTOR
        for number in range(count):
            at = self.take(number, at, number in flushes)

    def take(self, number, at, is_flushed):
        """Takes an entry that begins at a byte. Returns where it ends."""
        sector, count, flags, _length = HEADER.unpack_from(self.bytes, at)
        flags |= FLUSH if is_flushed else 0
        data = None if flags & DISCARD else at + SECTOR
        self.entries.append((sector, count, flags, data))
        self.flushes.append(self.flushes[-1] + bool(flags & FLUSH))
        self.marks.append(self.marks[-1] + bool(flags & MARK))
        for block in range(sector // BLOCK, (sector + count - 1) // BLOCK + 1) if count else ():
            self.blocks.setdefault(block, []).append(number)
        return at + SECTOR + (SECTOR * count if data is not None else 0)

    def covers(self, number):
        """Whether an entry of the log covers a sector."""
        found = self.known_covers.get(number)
        if found is None:
            entries = map(self.entries.__getitem__, self.blocks.get(number // BLOCK, ()))
            found = self.known_covers[number] = any(sector <= number < sector + count for sector, count, _flags, _data in entries)
        return found

    def counts(self, number):
        """Whether a look at a sector counts: no choice changes another one."""
        return self.covers(number)

    def initial(self, number):
        """What a sector held before entry 0."""
        return self.base[SECTOR * number : SECTOR * (number + 1)].ljust(SECTOR, b"\0")

    def part(self, entry, place):
        """Returns the part of a sector of an entry."""
        return entry, None if self.by_write else place

    def at_risk(self, cut):
        """Returns the parts of which a crash may take something at a cut, in order."""
        found = []
        for number in range(max(bisect_left(self.flushes, self.flushes[cut]) - 1, 0), cut):
            _sector, count, flags, _data = self.entries[number]
            if count and (number == cut - 1 or not flags & FUA):
                found += [(number, None)] if self.by_write else [(number, place) for place in range(count)]
        return found

    def covered(self, part):
        """Returns the sectors that a part covers."""
        entry, place = part
        first, count, _flags, _data = self.entries[entry]
        return range(first, first + count) if place is None else range(first + place, first + place + 1)

    def over(self, sector, cut):
        """Yields what covers a sector before a cut, in order, each with the place of the sector in it."""
        return self.those_over(sector, cut, self.blocks.get(sector // BLOCK, ()))

    def back_over(self, sector, cut):
        """Yields what covers a sector before a cut, the last first."""
        return self.those_over(sector, cut, reversed(self.blocks.get(sector // BLOCK, ())))

    def those_over(self, sector, cut, entries):
        """Yields those of some entries that cover a sector before a cut."""
        for entry in entries:
            first, count, _flags, _data = self.entries[entry]
            if entry < cut and first <= sector < first + count:
                yield entry, sector - first

    def content(self, entry, place):
        """Returns what an entry leaves in a sector that it covers."""
        data = self.entries[entry][3]
        return ZEROS if data is None else self.bytes[data + SECTOR * place : data + SECTOR * (place + 1)]

    def stretch(self, fate, entry, place):
        """Returns which bytes of a sector of a part that isn't whole reach the device."""
        if not self.by_write:
            return kept(fate, SECTOR)
        count = self.entries[entry][1]
        return tuple(min(max(at - SECTOR * place, 0), SECTOR) for at in kept(fate, SECTOR * count))

    def numbers(self):
        """Yields for each cut a number of the image in which nothing is lost there, by which unlike images are told apart."""
        number, held = 0, {}
        yield number
        for entry, (first, count, _flags, _data) in enumerate(self.entries):
            for place in range(count):
                content = self.content(entry, place)
                number ^= hash((first + place, held.get(first + place, self.initial(first + place)))) ^ hash((first + place, content))
                held[first + place] = content
            yield number

    def is_mark(self, entry):
        return bool(self.entries[entry][2] & MARK)

    def has_parts(self, entry):
        return self.entries[entry][1] > 0

    def said(self, cut, fates):
        """Returns the cut of an image, and its choice as it is told to who judges it."""
        return cut, text_of(fates)

    def image_of(self, cut, fates):
        """Returns the image of a cut by the fates of those parts that aren't whole."""
        return LogImage(self, cut, fates)

    def image(self, cut, choice):
        """Returns the image of a cut and a choice, as a line has it."""
        return LogImage(self, cut, dict(fates_of(choice)))


class LogImage:
    """One crash image."""

    def __init__(self, images, cut, fates):
        self.images, self.cut, self.fates = images, cut, fates
        self.sectors, self.seen = images.sectors, {}

    def sector(self, number):
        """The bytes of a sector."""
        found = self.seen.get(number)
        if found is None:
            found = self.seen[number] = self.found(number)
        return found

    def found(self, number):
        """Looks up a sector: what the last whole unit left, and what torn ones after it did to that."""
        images, torn, found = self.images, [], None
        for entry, place in images.back_over(number, self.cut):
            fate = self.fates.get(images.part(entry, place), WHOLE)
            if fate == WHOLE:
                found = images.content(entry, place)
                break
            if fate != "drop":
                torn.append((images.content(entry, place), images.stretch(fate, entry, place)))
        found = images.initial(number) if found is None else found
        for content, (first, end) in reversed(torn):
            found = found[:first] + content[first:end] + found[end:]
        return found
