"""What is known of files, of what is opened of them, and of processes."""
import fnmatch
import os
import re
from dataclasses import dataclass, field

from commands.record.disk import SECTOR

# What stands for the file of the marks, which isn't recorded.
MARKS = object()


class File:
    """A recorded file: its bytes as they stand, and in what ranges it was changed."""

    def __init__(self, name, content=b""):
        self.name, self.size, self.most, self.initial = name, len(content), len(content), content
        self.content = bytearray(content)
        # the ranges of sectors that were written, in their order, and of those that were copied from; and how often it has grown
        self.changed, self.copied, self.grown, self.unlinked = [], [], 0, False

    def fit(self, end):
        """Makes room up to a byte, in whole sectors."""
        wanted = -(-end // SECTOR) * SECTOR
        if wanted > len(self.content):
            self.content.extend(bytes(wanted - len(self.content)))

    def put(self, start, data):
        """Puts bytes in their place. Returns the first sector that changed, and the bytes of all that did."""
        end = start + len(data)
        self.fit(end)
        self.content[start:end] = data
        first, last = start // SECTOR, -(-end // SECTOR)
        self.changed.append((first, last))
        self.grow(end)
        return first, bytes(self.content[SECTOR * first : SECTOR * last])

    def grow(self, size):
        """Makes the file larger, unless it is as large already."""
        if size > self.size:
            self.fit(size)
            self.size, self.grown = size, self.grown + 1
            self.most = max(self.most, size)


@dataclass(frozen=True)
class Other:
    """What a name is of that is no file and no folder: a symbolic link with its text, `inside` one whose text is of a path in the
    folder of the recording, a FIFO or a socket."""

    what: str
    text: bytes = b""


@dataclass(frozen=True)
class Another:
    """One more name of the file that has this one."""

    name: bytes


@dataclass(eq=False)
class Opened:
    """What one or more descriptors share: a file that was opened, where it is read and written next, and how."""

    file: object
    append: bool
    through: bool
    writable: bool
    at: int = 0
    # how often its place was moved
    moved: int = 0
    # whether it is written past the page cache, by O_DIRECT
    direct: bool = False
    # how often that or `append` was changed
    turned: int = 0
    # whether another call changed its name while it was opened for reading, so that it isn't known of which file it is
    unsure: bool = False


class Table(dict):
    """The descriptors of a process. Of recorded files, and of the marks: number to (what was opened, whether execve closes it).
    `others` has the same of what isn't recorded: files from outside, and pipes."""

    def __init__(self, recorded=(), others=()):
        super().__init__(recorded)
        self.others = dict(others)

    def all(self):
        return {**self.others, **self}

    def opened(self, number):
        """What a descriptor is of, recorded or not, or nothing."""
        return self.all_of(number)[0]

    def all_of(self, number):
        return self.get(number) or self.others.get(number) or (None, False)

    def put(self, number, opened, closes):
        """A number is of this from now on; of nothing that is known, where nothing was opened."""
        self.drop(number)
        if opened is not None:
            recorded = opened.file is MARKS or isinstance(opened.file, File)
            (self if recorded else self.others)[number] = opened, closes

    def drop(self, number):
        self.pop(number, None)
        self.others.pop(number, None)

    def copy(self):
        return Table(self, self.others)

    def kept(self):
        """What execve leaves of it."""
        return Table(*({number: it for number, it in these.items() if not it[1]} for these in (self, self.others)))


@dataclass
class Space:
    """Where in the memory of a process recorded files are mapped that could be written there."""

    ranges: list = field(default_factory=list)

    def take(self, start, length):
        """A range isn't what it was."""
        self.ranges = [part for it in self.ranges for part in it.part(it.first, start) + it.part(start + length, it.last)]

    def has(self, start, length):
        return bool(self.within(start, length))

    def within(self, start, length):
        return [part for it in self.ranges for part in it.part(start, start + length)]

    def move(self, start, length, to, size):
        """A range is somewhere else, and has another size; of no length, it is there once more."""
        found = [it for it in self.ranges if it.first <= start < it.last]
        self.take(start, length)
        self.take(to, size)
        self.ranges += [Range(to, to + size, it.file, it.at + start - it.first) for it in found]

    def copy(self):
        return Space(list(self.ranges))


@dataclass(frozen=True)
class Maker:
    """Who makes a call: the number of the process, the words of its program, and who made the process or started the program."""

    process: int
    words: tuple = ()
    parent: object = field(default=None, compare=False, repr=False)


@dataclass
class Process:
    """A process or thread: what it may share with others."""

    table: Table
    folder: list
    space: Space
    maker: Maker = None


@dataclass(frozen=True)
class Passed:
    """A sync that ended while another call was in flight: its call, the first and the last of the entries that have something durable, and
    which sectors had versions in flight when it had ended, by the places of the other call."""

    call: object
    first: object
    last: object
    unsure: dict


@dataclass
class Flight:
    """A call on a recorded file that has begun: what it found there."""

    opened: Opened | None = None
    file: object = None
    # what isn't recorded of its first descriptor
    other: Opened | None = None
    moved: int = 0
    turned: int = 0
    grown: int = 0
    # how many changes of the file there were, and how many copies from it
    changes: int = 0
    copies: int = 0
    # of a copy: what it reads, how often the place of that was moved, and how many changes of its file there were
    source: Opened | None = None
    source_moved: int = 0
    source_changes: int = 0
    # the place in that at which it began, once it is known
    start: int | None = None
    sync: object = None
    call: object = None
    # of all files, for a call that names one by its path
    all_changes: dict = field(default_factory=dict)
    # of a call that closes a descriptor: what that was of
    closing: Opened | None = None
    # the files that other calls changed since it began; and of those that another call gave the size that they had, this size
    touched: set = field(default_factory=set)
    cuts: dict = field(default_factory=dict)
    # up to where another call reserved room in files
    kept: dict = field(default_factory=dict)
    # of a call that moves the folder of the process: what that was
    at: bytes | None = None
    # the names of files that other calls opened for writing since it began, and what they opened for reading alone, by its name; the file
    # that its path named then
    reopened: set = field(default_factory=set)
    read: list = field(default_factory=list)
    named: object = None
    # how many changes of names there were, and the last version of them; nothing for the one that is the last now
    turn: int = 0
    version: int | None = None
    # how many entries the log had
    entries: int = 0
    # the syncs of others that have ended since it began, and had something durable
    passed: list = field(default_factory=list)
    # the descriptors of its process when it began, and the numbers of these that it uses; by such numbers, the calls that used them since
    # it began, and those that gave them to something else
    table: Table | None = None
    numbers: set = field(default_factory=set)
    used: dict = field(default_factory=dict)
    given: dict = field(default_factory=dict)


@dataclass(frozen=True)
class Range:
    """A range of memory that shows a recorded file: from where to where, which file, and from which of its bytes on."""

    first: int
    last: int
    file: object
    at: int

    def part(self, first, last):
        """What is left of it between two places, or nothing."""
        first, last = max(first, self.first), min(last, self.last)
        return [Range(first, last, self.file, self.at + first - self.first)] if first < last else []


def flags_of(text):
    """The names of flags in a text."""
    return set(re.findall(r"\b_*[A-Z][A-Z0-9]*_\w+", text))


def skips_below(name, skipped):
    """Whether a file is skipped, or a folder that it is in."""
    parts = name.split(b"/")
    return any(skips(b"/".join(parts[:end]), skipped) for end in range(1, len(parts) + 1))


def skips(name, skipped):
    """Whether a file is skipped, by its name or by its path in the folder."""
    return any(fnmatch.fnmatchcase(it, os.fsencode(skip)) for skip in skipped for it in (name, os.path.basename(name)))
