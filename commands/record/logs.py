"""A recording of which the log has more than a log may have: several logs, one after the other.

A later log begins where the one before it ends, and its base is what the device durably holds there. Before its own entries it has

- the marks of all logs before it, so that who counts the marks goes on counting;
- what is in flight where it begins, in its order: writes that a crash may still lose. A FUA write over a part of such a write comes along.

A write of which each sector was made durable since doesn't come along: no image shows whether it is lost. The cut before the first own entry is
the last cut of the log before. So a later log is judged from the cut after that entry on, and each cut has the images that it has in
the whole.

A log ends right after a flush where one isn't far, so that mostly nothing is in flight where the next one begins.
"""
from dataclasses import dataclass

from commands.record.calls import Refused
from commands.record.disk import FLUSH, FUA, MARK, SECTOR
from commands.record.layout import trace_log

# At least this part of a log's entries are its own.
LEAST = 8


@dataclass(frozen=True)
class Stretch:
    """What one of several logs has: the numbers that its entries have in the whole, the first cut that it is judged at, and the device before it."""

    numbers: tuple
    first: int
    base: bytes

    def whole_cut(self, cut):
        """The cut of the whole that one of this log is."""
        return self.numbers[cut - 1] + 1 if cut else 0


class Way:
    """The entries of a recording as they are gone through. `device` has what is durable, and `flight` the numbers of what came since that."""

    def __init__(self, entries, firsts, base):
        self.entries, self.firsts, self.device = entries, firsts, bytearray(base)
        self.flight, self.marks = [], []

    def sectors(self, number):
        """The sectors of the device that an entry writes."""
        it = self.entries[number]
        first = self.firsts[it.file] + it.sector
        return range(first, first + it.count)

    def settle(self, numbers):
        """Puts entries onto the device."""
        for number in numbers:
            start = SECTOR * self.sectors(number).start
            self.device[start : start + len(self.entries[number].data)] = self.entries[number].data

    def take(self, number):
        """Goes past an entry."""
        it = self.entries[number]
        if it.kind == MARK:
            self.marks.append(number)
        if it.kind == FLUSH or it.flushes:
            self.settle(self.flight)
            self.flight = []
        if it.count:
            self.flight.append(number)

    def come_along(self):
        """Returns the numbers of what a log that begins here has of what was before. All else is durable, or no image shows it."""
        durable, seen = set(), set()
        for number in reversed(self.flight):
            sectors = self.sectors(number)
            if self.entries[number].kind & FUA:
                durable.update(sectors)
            elif not durable.issuperset(sectors):
                seen.add(number)
        kept, over = [], set()
        for number in self.flight:
            if number in seen or self.entries[number].kind & FUA and not over.isdisjoint(self.sectors(number)):
                kept.append(number)
                over.update(self.sectors(number))
        kept_ones = set(kept)
        self.settle(it for it in self.flight if it not in kept_ones)
        self.flight = kept
        return kept

    def end(self, first, room):
        """Where a log ends whose own entries begin with a number: right after a flush where there is one in the second half of its room."""
        number, flushed = first, first
        while number < len(self.entries) and room.takes(self.entries[number]):
            number += 1
            if self.entries[number - 1].kind == FLUSH or number < len(self.entries) and self.entries[number].flushes:
                flushed = number
        return number if number == len(self.entries) or flushed - first < (number - first) // 2 else flushed


class Room:
    """What a log may still have, by the limits of --large."""

    def __init__(self, most):
        self.entries, self.units, self.length = most, trace_log.LARGE.units, trace_log.LARGE.length - SECTOR

    def takes(self, entry):
        """Whether there is room for an entry, which has it then."""
        length = SECTOR * (1 + entry.count)
        if self.entries < 1 or self.units < entry.count or self.length < length:
            return False
        self.entries, self.units, self.length = self.entries - 1, self.units - entry.count, self.length - length
        return True


def why_not(count, most, at, marks, flying):
    """Why a recording can't be several logs: from an entry on too much would stand before the own entries of the next one."""
    return (
        f"the log has {count} entries, and a log has at most {most}, with --large too; a further log that begins at entry {at} has no room, since {marks} marks "
        f"and {flying} writes in flight come before it: record less, with fewer marks or a sync of all files at times, or again with `files` as --base"
    )


def split(entries, firsts, base, most=trace_log.ENTRIES):
    """Yields what each log of a recording has, one where that has no more than a log may have. `firsts` says where each file begins, `base`
    what the device holds at first, and `most` how many entries a log may have."""
    way, at = Way(entries, firsts, base), 0
    while True:
        head, room = [*way.marks, *way.come_along()], Room(most)
        end = way.end(at, room) if all(room.takes(entries[it]) for it in head) else at
        if end < len(entries) and end - at < max(most // LEAST, 1):
            raise Refused(why_not(len(entries), most, at, len(way.marks), len(head) - len(way.marks)))
        yield Stretch((*head, *range(at, end)), len(head) + 1 if at else 0, bytes(way.device) if at else base)
        if end == len(entries):
            return
        for number in range(at, end):
            way.take(number)
        at = end
