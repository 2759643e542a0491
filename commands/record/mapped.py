"""Follows what a program stores in the files that it has mapped, by the looks that `looks.py` took.

A look stands right before the call whose line begins at its place. What a file holds there, and what the calls up to there say, differ
in what was stored in memory since the look before. Each page that differs is a write of its own at this place, from the first
sector that changed to the last. So a sync that begins there covers it.

- What a call in flight writes may be there already, and stands in the log where it ends. So sectors that differ just as such a call
  would make them wait for a look at which it isn't in flight.
- msync with MS_SYNC is a sync of the files in its range, of the pages that are mapped there, as fdatasync is of all of a file. It
  makes nothing else durable, and with MS_ASYNC nothing.
- Each call that begins while a recorded file is mapped needs a look of its own. One without is refused.
"""
import os
from dataclasses import replace

from commands.record.calls import Call, Refused, shown
from commands.record.disk import SECTOR
from commands.record.files import Flight, Opened
from commands.record.known import COPIES, OPENS, READS, SYNCS, WRITES
from commands.record.looks import MOST, PAGE, RECORD
from commands.record.listening import NUMBER
from commands.record.told import quoted

CHUNK = 1 << 20
# The name of the call that stands for what was stored.
STORE = "store"
# Calls on a descriptor that change no byte of its file, and those that may write a file that isn't the one of their first descriptor.
QUIET = {*READS, *SYNCS, "preadv2", "lseek", "_llseek", "msync"}
FOREIGN = f"writes to its descriptor {NUMBER}, where --mapped has strace's text, so strace doesn't see it; a setting with fewer open files; the guest"
TOO_LARGE = f"the mapped files have more than {MOST >> 20} MiB, holes left out; a smaller map; --skip takes a file that recovery doesn't need; the guest"


def records(looks, calls):
    """Yields what was looked at: its place, as a line and whether it is within that line and not before it, and the record's kind,
    file, place and bytes."""
    with open(looks, "rb") as stream, open(calls, "rb") as text:
        at, lines, last = 0, 0, b"\n"
        while head := stream.read(RECORD.size):
            kind, offset, number, place, length = RECORD.unpack(head)
            while at < offset and (part := text.read(min(CHUNK, offset - at))):
                at, lines, last = at + len(part), lines + part.count(b"\n"), part[-1:]
            yield (lines + 1, last != b"\n"), kind, number, place, stream.read(length)


def pages_of(content):
    """The numbers of the pages that aren't zeros."""
    return {at // PAGE for at in range(0, len(content), PAGE) if content[at : at + PAGE].strip(b"\0")}


class Seen:
    """A file that is held open: its pages at the last look, and those that have to be compared."""

    def __init__(self):
        # (what of the file's own changes was compared stands in `changes`)
        self.file, self.is_watched, self.is_new, self.pages, self.waiting, self.changes = None, False, True, {}, set(), 0

    def gather(self):
        """Gathers the pages that may differ from what the calls say."""
        changed = self.file.changed[self.changes :]
        self.changes = len(self.file.changed)
        if self.is_new:
            self.is_new, self.waiting = False, {*self.waiting, *self.pages, *pages_of(self.file.content)}
        for first, last in changed:
            self.waiting |= set(range(SECTOR * first // PAGE, -(-SECTOR * last // PAGE)))


class Flying:
    """What a call in flight may write of a file: from where to where, and which bytes; none are zeros."""

    def __init__(self, first, last, data=b""):
        self.first, self.last, self.data = first, last, data

    def has(self, at, byte):
        """Whether it may have this byte there."""
        return self.first <= at < self.last and byte == (self.data[at - self.first] if self.data else 0)


class Mapped:
    """The mapped files of a program that is followed. `last` is the line of the last look that stood before a line."""

    def __init__(self, tracing, looks, calls):
        self.tracing, self.records = tracing, records(looks, calls)
        self.next, self.seen, self.held, self.count, self.last, self.is_looking = next(self.records, None), {}, {}, 0, 0, False

    # Looks

    def before(self, call):
        """A call begins: what stands before its line is taken in."""
        is_wanted = any(it.file is not None and it.is_watched for it in self.seen.values())
        self.up_to(call, (call.line, False))
        if is_wanted and self.last != call.line:
            raise Refused(f"{call}: mapped files weren't looked at before it; record again, or the guest")
        if call.name == "remap_file_pages":
            raise Refused(f"{call}: which pages it maps isn't followed; --skip takes a file that recovery doesn't need; the guest")

    def before_end(self, call):
        """A call ends: what stands before the rest of its last line is taken in."""
        self.up_to(call, (call.last, True))

    def finish(self):
        """All calls have ended."""
        self.up_to("the end", (float("inf"), True))
        return self

    def up_to(self, call, place):
        """Takes in what stands up to a place. `call` is told where it is refused."""
        while self.next is not None and self.next[0] <= place:
            (line, is_within), kind, number, at, data = self.next
            self.next = next(self.records, None)
            if kind == b"p":
                self.seen[number].pages[at // PAGE] = data
                self.seen[number].waiting.add(at // PAGE)
                continue
            self.looked(call)
            if kind == b"l":
                self.count, self.is_looking, self.last = self.count + 1, True, self.last if is_within else line
            else:
                self.take(call, line, kind, number, data)
        self.looked(call)

    def take(self, call, line, kind, number, data):
        """Takes in a record that isn't of a look."""
        if kind == b"f":
            raise Refused(f"calls:{line}: process {number} {FOREIGN}")
        if kind == b"s":
            raise Refused(f"{call}: {TOO_LARGE}")
        if kind == b"n":
            self.held[line] = data.decode()
            return
        it = self.seen.setdefault(number, Seen())
        if kind == b"m":
            self.held[line] = it
        elif kind == b"w":
            it.is_watched = True

    def looked(self, call):
        """A look has been taken in: compares what it saw with what the calls say."""
        if not self.is_looking:
            return
        self.is_looking = False
        for it in self.seen.values():
            if it.is_watched and it.file is not None:
                it.gather()
                self.compare(call, it)

    def compare(self, call, it):
        """Writes the pages that differ, but for what a call in flight writes."""
        if not it.waiting:
            return
        flying = list(self.flying(it.file))
        it.waiting = {page for page in sorted(it.waiting) if not self.compare_page(call, it, page, flying)}
        # (what is written here agrees with what was seen)
        it.changes = len(it.file.changed)

    def compare_page(self, call, it, page, flying):
        """Writes of a page the sectors from the first that differs to the last. Returns whether the page agrees now."""
        file, start = it.file, PAGE * page
        found = it.pages.get(page, b"").ljust(PAGE, b"\0")[: max(min(start + PAGE, file.size) - start, 0)]
        known = bytes(file.content[start : start + len(found)])
        places = [at for at in range(0, len(found), SECTOR) if found[at : at + SECTOR] != known[at : at + SECTOR]]
        later = [at for at in places if self.is_flying(flying, start + at, found[at : at + SECTOR], known[at : at + SECTOR])]
        if places and not later:
            self.put(call, file, start + places[0], found[places[0] : places[-1] + SECTOR])
        for at in places if later else ():
            if at not in later:
                self.put(call, file, start + at, found[at : at + SECTOR])
        return not later

    def put(self, call, file, start, data):
        """Writes what was stored. It is told as a call that ended before the one by which it was seen, where there is one."""
        flight, entries = Flight(grown=file.grown, changes=len(file.changed)), self.tracing.disk.entries
        seen = entries.call
        if isinstance(call, Call):
            entries.call = replace(call, name=STORE, ended=call.line - 1, told=f"stores to the mapped {quoted(file.name)}")
        self.tracing.put(call, flight, Opened(file, False, False, True), start, data, False)
        entries.call = seen

    def is_flying(self, flying, start, found, known):
        """Whether a sector differs just as the calls in flight make it."""
        differ = [at for at in range(len(found)) if found[at] != known[at]]
        return all(any(it.has(start + at, found[at]) for it in flying) for at in differ)

    def flying(self, file):
        """Yields what calls in flight may write of a file."""
        for flight in self.tracing.flights.values():
            call = flight.call
            if call is None or call.name in QUIET:
                continue
            if call.name in COPIES and self.tracing.mentioned in call.text or call.name == "ioctl" and "CLONE" in call.text:
                raise Refused(f"{call}: what is stored in mapped files at once can't be told from what it writes")
            if call.name != "ioctl" and self.file_of(flight, call) is file:
                yield self.flight_of(flight, call, file)

    def file_of(self, flight, call):
        """The file that a call in flight may write, or nothing."""
        if call.name not in ("truncate", "truncate64") and (call.name not in OPENS or "O_TRUNC" not in call.text and call.name != "creat"):
            return flight.file
        path = self.tracing.path(call, *((0, 1) if call.name.startswith("openat") else (None, 0)))
        return self.tracing.files.get(self.tracing.name(self.tracing.real_now(call, path)))

    def flight_of(self, flight, call, file):
        """What a call in flight may write of its file."""
        if call.name in WRITES:
            data = call.data(1) if call.name in ("write", "pwrite64") else call.pieces(1)
            offset = call.number(3) if call.name.startswith("pwrite") else -1
            is_end = flight.opened.append or "RWF_APPEND" in call.text
            start = file.size if is_end else flight.opened.at if offset == -1 else offset
            return Flying(start, start + len(data), data)
        if call.name == "fallocate":
            return Flying(call.number(2), call.number(2) + call.number(3))
        # (it gets shorter, to nothing by an open)
        size = call.number(1) if "truncate" in call.name else 0
        return Flying(min(size, file.size), float("inf"))

    # Mappings

    def map(self, call, file):
        """A call has mapped a recorded file that may be written there: says which of those that are held open it is."""
        it = self.held.get(call.line)
        if "MAP_SYNC" in call.word(3):
            raise Refused(f"{call}: a mapping with MAP_SYNC makes stores durable without a call; a folder that isn't of DAX; the guest")
        if not isinstance(it, Seen):
            raise Refused(f"{call}: the mapped file can't be held open ({it or 'no look was taken'}); --skip takes a file that recovery doesn't need; the guest")
        if it.file not in (None, file):
            raise Refused(f"{call}: the mapped file is another one than {shown(os.fsdecode(it.file.name))}")
        if it.file is None:
            # (what was compared before is nothing)
            it.file, it.is_new = file, True

    def is_watched(self, file):
        return any(it.file is file and it.is_watched for it in self.seen.values())

    # Syncs

    def begin_sync(self, call, process):
        """Returns what msync makes durable, as it begins, or nothing."""
        if "MS_SYNC" not in call.word(2).split("|"):
            return None
        start, page = call.number(0), os.sysconf("SC_PAGESIZE")
        found = None
        for it in process.space.within(start, -(-call.number(1) // page) * page):
            sectors = range(it.at // SECTOR, (it.at + it.last - it.first) // SECTOR)
            found = self.tracing.add_sync(found, it.file, sectors)
        return found

    def notes(self):
        """What a reader should know of the files that were looked at."""
        names = sorted(shown(os.fsdecode(it.file.name)) for it in self.seen.values() if it.file is not None and it.is_watched)
        if not names:
            return []
        are, their = ("is", "its") if len(names) == 1 else ("are", "their")
        return [
            f"{', '.join(names)} {are} mapped: {their} bytes are known at each call ({self.count:,} looks), not between two calls. "
            "An order of stores to memory without a call between them isn't tested; stores to several pages between two calls "
            "arrive in any subset, of which --bound K has those that lack at most K, and --bound any all"
        ]
