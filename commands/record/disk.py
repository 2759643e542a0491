"""What a crash may leave of files, and the entries of a log that say the same.

A file is a sequence of sectors, and each sector has versions: one that is durable, and those that were written since then. A
crash leaves of each sector one of these, whichever files were synced in which order. That is all that is promised of files.

- A write makes new versions of its sectors, where it ended: a write entry.
- A sync of a file makes durable what its sectors held where the sync began, from where it ended on. Where then no sector of any
  file has a version that isn't durable, this is a flush entry. Else a flush would promise too much, since it makes all files
  durable. So then it is a FUA entry for each run of adjoining sectors of the file, with what they held where the sync began.
  What was written to them in between is written once more after it, and isn't durable.
- A write that was in flight where a sync of another call ended may have arrived before what that made durable. So its write entries stand
  before those of the sync, too, and after these a FUA entry has what its sectors hold without it (`tracing.py`).
- A write with O_DSYNC is a write entry, and then the same as a FUA entry: in flight it may be lost or torn.

By pages a write, but for one past the page cache, is a write entry for each page of 4,096 bytes that it changed, with the whole page as it
stands then: a page has one of its versions, as the page cache wrote it. The sectors of one page have the same versions then.

docs/RECORDING.md says why a log so made has each image that a crash may leave of the files, and no other.
"""
from dataclasses import dataclass, field

SECTOR = 512
# How many sectors a page of the page cache has.
PAGE = 4096 // SECTOR
WRITE, FLUSH, FUA, MARK = 0, 1, 2, 8


@dataclass
class Entry:
    """An entry of the log, its place given by a file and a sector in it."""

    kind: int
    file: object = None
    sector: int = 0
    data: bytes = b""
    # of a place with a chain: whether the chain begins anew with it
    anew: bool = field(default=False, compare=False)
    # the call that made it, and of a change of names which slots it changes
    call: object = field(default=None, compare=False, repr=False)
    slots: tuple = field(default=(), compare=False)
    # whether a flush stands right before it, as a flag of its own
    flushes: bool = False

    @property
    def count(self):
        return 0 if self.kind == MARK else len(self.data) // SECTOR


class Entries(list):
    """Entries in their order. Each is told which call is being followed where it is made, and which slots that changes."""

    call, slots = None, ()

    def append(self, entry):
        self.insert(len(self), entry)

    def insert(self, at, entry):
        entry.call, entry.slots = self.call, self.slots
        super().insert(at, entry)

    def place(self, entry):
        """The place of this very entry."""
        return next(at for at in range(len(self) - 1, -1, -1) if self[at] is entry)

    def extend(self, more):
        for it in more:
            self.append(it)

    def __iadd__(self, more):
        self.extend(more)
        return self


@dataclass
class Sector:
    """Of a sector of a file: how many of its versions are durable, and those that were written since."""

    durable: int = 0
    since: list = field(default_factory=list)
    # the last version that is durable, or nothing where it is what stood there at first
    held: bytes | None = None

    @property
    def newest(self):
        """The number of its last version."""
        return self.durable + len(self.since)

    def settle(self, version):
        """Makes all versions up to that number durable. Returns the last of them, or nothing where it was durable."""
        count = version - self.durable
        if count <= 0:
            return None
        content, self.since, self.durable = self.since[count - 1], self.since[count:], version
        self.held = content
        return content


def runs(sectors):
    """Sectors with their bytes, a map for each file, as runs of adjoining ones: file, first sector, bytes."""
    for file, found in sectors.items():
        first, parts = None, []
        for number in sorted(found):
            if parts and number != first + len(parts):
                yield file, first, b"".join(parts)
                parts = []
            first = first if parts else number
            parts.append(found[number])
        if parts:
            yield file, first, b"".join(parts)


def by_pages(first, data):
    """Yields whole sectors in pieces that each lie in one page: the first sector and the bytes."""
    at, end = first, first + len(data) // SECTOR
    while at < end:
        until = min((at // PAGE + 1) * PAGE, end)
        yield at, data[SECTOR * (at - first) : SECTOR * (until - first)]
        at = until


def keeps_order(place):
    """Whether the versions of a place stay in their order by themselves, as those of a chain do: what is durable is then written once
    more, and what came later isn't."""
    return getattr(place, "keeps_order", False)


class Disk:
    """The sectors of all files, and the entries that say what became of them; with `pages` by whole pages."""

    def __init__(self, pages=False):
        # (of each file the numbers of the sectors with versions that aren't durable stand in `unsure`)
        self.entries, self.sectors, self.unsure = Entries(), {}, {}
        # by pages: of each sector of a file which write made each of its versions
        self.pages, self.turns, self.turn = pages, {}, 0
        # where that is asked for: of the sectors that are written, what they durably held before; nothing where a version was in flight
        self.before = None

    def whole_pages(self, content, first, data, is_direct):
        """What a write of some sectors writes: by pages all of each page, as the file's content has it."""
        if not self.pages or is_direct:
            return first, data
        start, end = first // PAGE * PAGE, -(-(first + len(data) // SECTOR) // PAGE) * PAGE
        return start, bytes(content[SECTOR * start : SECTOR * end]).ljust(SECTOR * (end - start), b"\0")

    def number(self, file, first, data):
        """By pages: notes which write made a version of these sectors. Places with a chain have none of them."""
        if self.pages and not hasattr(file, "keeps_order"):
            self.turn += 1
            for at in range(len(data) // SECTOR):
                self.turns.setdefault((file, first + at), []).append(self.turn)

    def turns_of(self, file, number, count):
        """What tells the last versions of a sector apart, as many of them: by pages those of one write have the same."""
        found = self.turns.get((file, number))
        return range(count) if found is None else found[len(found) - count :]

    def forget(self, file, numbers):
        """These sectors of a file are durable, or nobody sees them any more."""
        left = self.unsure.get(file)
        if left is not None:
            left.difference_update(numbers)
            if not left:
                del self.unsure[file]

    def write(self, file, first, data, is_one=False):
        """Whole sectors of a file are written, by pages or as one entry."""
        for at, part in by_pages(first, data) if self.pages and not is_one else ((first, data),):
            self.entries.append(Entry(WRITE, file, at, part))
            self.number(file, at, part)
        found, unsure = self.sectors.setdefault(file, {}), self.unsure.setdefault(file, set())
        for at in range(0, len(data), SECTOR):
            number = first + at // SECTOR
            it = found.get(number) or found.setdefault(number, Sector())
            if self.before is not None and not hasattr(file, "keeps_order"):
                self.before.setdefault((file, number), None if it.since else self.settled(file, number))
            it.since.append(data[at : at + SECTOR])
        unsure.update(range(first, first + len(data) // SECTOR))

    def settled(self, file, number):
        """What a sector of a file durably holds."""
        held = self.sectors[file][number].held
        return bytes(file.initial[SECTOR * number :][:SECTOR]).ljust(SECTOR, b"\0") if held is None else held

    def force(self, file, first, data):
        """Whole sectors of a file, as they were just written, are durable."""
        self.entries.append(Entry(FUA, file, first, data))
        for number in range(first, first + len(data) // SECTOR):
            self.sectors[file][number].settle(self.sectors[file][number].newest)
        self.forget(file, range(first, first + len(data) // SECTOR))

    def lay(self, file, first, data):
        """Whole sectors that nothing shows yet are written, and are durable."""
        self.entries.append(Entry(FUA, file, first, data))
        self.number(file, first, data)
        found, count = self.sectors.setdefault(file, {}), len(data) // SECTOR
        for at in range(count):
            it = found.setdefault(first + at, Sector())
            it.durable, it.since, it.held = it.newest + 1, [], data[SECTOR * at : SECTOR * (at + 1)]
        self.forget(file, range(first, first + count))

    def mark(self, text, at=None):
        """A mark stands last, or before the entry with a number."""
        self.entries.insert(len(self.entries) if at is None else at, Entry(MARK, data=text))

    def begin_sync(self, files):
        """A sync of these files begins. Returns what it will make durable."""
        return {file: {number: self.sectors[file][number].newest for number in self.unsure.get(file, ())} for file in files}

    def end_sync(self, begun):
        """The sync has ended: what it was to make durable is."""
        settled, later = {}, {}
        for file, versions in begun.items():
            done, is_ordered = [], keeps_order(file)
            for number, version in versions.items():
                it = self.sectors[file][number]
                content = it.settle(version)
                done += [] if it.since else [number]
                if content is not None:
                    settled.setdefault(file, {})[number] = content
                    for turn, written in zip(self.turns_of(file, number, len(it.since)), it.since) if it.since and not is_ordered else ():
                        later.setdefault(turn, {}).setdefault(file, {})[number] = written
            self.forget(file, done)
        if not self.unsure:
            self.entries.append(Entry(FLUSH))
            return
        self.entries += [Entry(FUA, *it, anew=not keeps_order(it[0])) for it in runs(settled)]
        self.entries += [Entry(WRITE, *it) for turn in sorted(later) for it in runs(later[turn])]
