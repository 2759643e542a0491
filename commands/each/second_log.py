"""What a program does to its image, as a log: its writes, by pages, and its syncs (docs/CRASH-MODEL.md, 'A crash while recovery is at work').

The server notes it while the program runs, as bytes; who searches and who serves read these.
"""
import contextlib
import hashlib
import marshal
import os
import struct
from typing import NamedTuple

from commands.each import served_wire as wire
from commands.each.second_calls import Laid
from commands.each.served_log import FLUSH, FUA, text_of
from commands.each.served_tree import SECTOR, WHOLE, File, Folder
from commands.record.calls import Refused

# Of each entry the first sectors of its file and of its page, how many sectors that has, which of them it holds, as bits, and its flags. Their
# bytes follow.
ENTRY = struct.Struct("<QQBBB")
PAGE = 8
# How long the name of a log is.
NAME = 32
MOST_ENTRIES, MOST_BYTES = 4096, 64 << 20
# A log that isn't explored is this, and why. No file begins at such a sector.
UNEXPLORED = b"\xff" * 8
# A log of calls is this, and what `Laid` reads.
CALLS = b"\xfe" * 8


class Entry(NamedTuple):
    """An entry: the first sector of its file, which is 0 for the device; the numbers of the sectors of its page or write, by their places
    there; its flags, what it holds, by the place, and the call that made it, where it is one."""

    file: int
    numbers: tuple
    flags: int
    held: dict
    call: str | None = None


class Noted:
    """What a program does to its image, or to the files of it, as it is noted."""

    def __init__(self):
        self.content, self.entries, self.size, self.why, self.is_ended, self.has_files = bytearray(), 0, 0, None, False, False
        # Which sectors of which pages were written since the last sync of their file, by the first sector of that.
        self.versions, self.unsynced = {}, set()
        # Where the files have names: the text of the map, those that the run began with, the calls, and the files that were made.
        self.map, self.named, self.calls, self.made, self.is_paused = None, None, [], set(), False

    def of_names(self, text, named):
        """Notes calls from now on, by the text of a map, of which the files of the run were made."""
        self.map, self.named = text, named

    @contextlib.contextmanager
    def pause(self):
        """Notes no call for a while."""
        self.is_paused = True
        try:
            yield
        finally:
            self.is_paused = False

    def knows(self, file):
        """Whether a file has, or had, a name."""
        return file[0] == 0 or file in self.made

    def call(self, *words):
        """Notes a call. Before the first one the sizes of all files are looked at."""
        if self.is_ended or self.is_paused:
            return
        if not self.calls:
            self.named.look_at_sizes()
        self.made |= {words[3]} if words[0] == "make" else set()
        self.calls.append(words)
        self.size += len(words[3]) if words[0] == "write" else 0
        self.count()

    def give_up(self, why):
        """Notes why this isn't explored: the first cause stands, and nothing more is noted."""
        if not self.is_ended:
            self.why, self.content, self.calls, self.is_ended = why, bytearray(), [], True

    def end(self):
        """Notes nothing more."""
        self.is_ended = True

    def write(self, file, first, last):
        """Notes a write to a file of the sectors from one to another of it."""
        while first <= last and not self.is_ended:
            page = first // PAGE
            self.add_version(file, page, range(first, min(last, PAGE * page + PAGE - 1) + 1))
            first = PAGE * page + PAGE

    def add_version(self, file, page, written):
        """Adds the entry of a piece of a write: a version of its page."""
        version = self.versions.setdefault((file.first, page), set())
        version |= set(written)
        held = sorted(written if file.flags & os.O_DIRECT else version)
        first, is_forced = PAGE * page, bool(file.flags & os.O_DSYNC)
        bits = sum(1 << it - first for it in held)
        self.content += ENTRY.pack(file.first, file.first + first, min(PAGE, file.sectors() - first), bits, FUA if is_forced else 0)
        self.content += b"".join(bytes(file.own[it][0]) for it in held)
        if is_forced:
            del self.versions[file.first, page]
        self.unsynced.add(file.first)
        self.count()

    def sync(self, file):
        """Notes a sync of a file, if something of it was written since the last one."""
        if file.first in self.unsynced and not self.is_ended:
            self.content += ENTRY.pack(file.first, 0, 0, 0, FLUSH)
            self.unsynced.remove(file.first)
            self.versions = {at: it for at, it in self.versions.items() if at[0] != file.first}
            self.count()

    def count(self):
        """Counts an entry, and gives up where there are too many entries or bytes."""
        self.entries += 1
        if self.entries > MOST_ENTRIES or len(self.content) + self.size > MOST_BYTES:
            self.give_up(f"the program made more than {MOST_ENTRIES} writes and syncs of its image, or wrote more than {MOST_BYTES} bytes")

    def told(self):
        """Returns what was noted, as bytes."""
        if self.why is not None:
            return UNEXPLORED + self.why.encode()
        if any(it[0] not in ("sync", "syncdir") for it in self.calls):
            return CALLS + marshal.dumps((self.map, self.calls), 2)
        return bytes(self.content)


class Noting:
    """What a file does of which it is noted what the program does to it."""

    flags = 0

    def sectors(self):
        """Returns how many sectors the file has in the image."""
        return -(-self.backed // SECTOR)

    def asked_by(self, how, flags):
        """Is told how a write comes, and the flags of the open file."""
        self.flags = flags
        if how & wire.OF_MAPPING:
            self.looks.noted.give_up("the program stored to its image by a shared mapping")

    def sync(self, _data=False):
        self.looks.noted.sync(self)

    def held(self, place):
        """Returns a sector of which some bytes stay as they are: here that is a look."""
        own = self.own.get(place)
        if (own is None or own[1] != WHOLE) and SECTOR * place < self.backed:
            self.looks.sector(self.first + place)
        return super().held(place)

    def write(self, at, data):
        """Writes bytes, and notes that."""
        size = self.backed
        super().write(at, data)
        if at + len(data) > size:
            self.looks.noted.give_up("the program wrote beyond the end of its image, or of a file in it")
        elif data:
            self.looks.noted.write(self, at // SECTOR, (at + len(data) - 1) // SECTOR)

    def resize(self, size):
        if size != self.length:
            self.looks.noted.give_up("the program changed the size of its image, or of a file in it")
        super().resize(size)


class NotedFile(Noting, File):
    """The image of a run, or a file of it that has a place, of which it is noted what the program does to it."""


class NotedImage(NotedFile):
    """The image of a run. Where its files are laid out, what is done to these is noted alone."""

    def write(self, at, data):
        """Writes bytes, and notes that."""
        if self.looks.noted.has_files:
            self.looks.noted.give_up("the program wrote to its image beside the files of it")
        super().write(at, data)


class NotedFolder(Folder):
    """A folder of the files of an image that have places, whose names aren't to change."""

    def changed(self):
        self.looks.noted.give_up("the program made, renamed or removed something among the files of its image")


class SecondLog:
    """A second log, by what was noted: its entries, and which of them hold a sector. One of calls is made of the image too on which they were
    made, or of another that the program can't tell from that. `laid` is its device then."""

    def __init__(self, content, image=None):
        self.why = content[len(UNEXPLORED) :].decode() if content.startswith(UNEXPLORED) else None
        # Before which flush entry each entry is made durable, or that there is none.
        self.entries, self.flushes, self.holding, self.durable, self.laid, at = [], [0], {}, {}, None, 0
        if content.startswith(CALLS):
            self.lay(content[len(CALLS) :], image)
            return
        while self.why is None and at < len(content):
            at = self.take(content, at)

    @property
    def view(self):
        """What stands for the device of the calls, by which images of unlike devices are told apart; None without one."""
        return self.laid and self.laid.view

    def lay(self, content, image):
        """Follows calls."""
        try:
            laid = Laid(content, image)
        except (Refused, KeyError, StopIteration, AssertionError) as fault:
            self.why = f"what the program does to its files can't be followed: {fault or type(fault).__name__}"
            return
        self.laid = laid
        for flags, numbers, data, call in laid.entries:
            self.add(Entry(0, tuple(numbers), flags, {it: data[SECTOR * it : SECTOR * (it + 1)] for it in range(len(numbers))}, call))

    def take(self, content, at):
        """Takes the entry that begins at a byte. Returns where it ends."""
        file, sector, count, bits, flags = ENTRY.unpack_from(content, at)
        at, held = at + ENTRY.size, {}
        for place in (it for it in range(PAGE) if bits >> it & 1):
            held[place], at = content[at : at + SECTOR], at + SECTOR
        self.add(Entry(file, tuple(range(sector, sector + count)), flags, held))
        return at

    def add(self, entry):
        """Adds an entry."""
        if entry.flags & FLUSH:
            for number, it in enumerate(self.entries):
                if it.file == entry.file:
                    self.durable.setdefault(number, len(self.entries))
        for place in entry.held:
            self.holding.setdefault(entry.numbers[place], []).append((len(self.entries), place))
        self.entries.append(entry)
        self.flushes.append(self.flushes[-1] + bool(entry.flags & FLUSH))

    def has_files(self):
        """Whether it is of the files of an image."""
        return any(it.file for it in self.entries)

    def is_forced(self, number):
        return bool(self.entries[number].flags & FUA)

    def at_risk(self, cut):
        """Returns the write entries of which a crash may take something at a cut."""
        found = [it for it in range(cut) if self.entries[it].held and self.durable.get(it, cut) >= cut]
        return [it for it in found if it == cut - 1 or not self.is_forced(it)]

    def is_last_cut(self, cut):
        """Whether no later cut has the images of this one."""
        return cut == len(self.entries) or bool(self.entries[cut].flags & FLUSH) or cut > 0 and self.is_forced(cut - 1)


class SecondLogs:
    """The second logs that were noted, by their names, and the content of each; logs are made where they are asked for first. What has names
    of `skipped` wasn't recorded, and isn't noted."""

    def __init__(self, skipped=()):
        self.skipped, self.found, self.made = skipped, {}, {}

    def keep(self, content, image):
        """Keeps a log of an image, and returns its name. One of calls hangs on the image too."""
        place = f"{image.cut} {text_of(image.fates)}".encode() if content.startswith(CALLS) else b""
        name = hashlib.sha256(place + content).hexdigest()[:NAME]
        self.put(name, content, image)
        return name

    def put(self, name, content, image):
        self.found.setdefault(name, (content, image))

    def __getitem__(self, name):
        if name not in self.made:
            self.made[name] = SecondLog(*self.found[name])
        return self.made[name]
