"""The records of a run, as they are read: each line is tested, and so is whether two of them contradict each other. By them it is looked up
what the program ends in on another image.

A record tells each image with as many marks that has the same bytes in each sector at which the program looked. Records are found by a tree
of these sectors and what they hold.
"""
import re

from commands.each.cases import TORN, WHOLE
from commands.each.served_log import fates_of
from commands.shared.faults import Refusal
from commands.shared.verdicts import EXIT, OUT_OF_TIME, SIGNAL, Verdict

TITLE = "crash known 1"
# What the lines of a head are of, after the first.
OTHER = ("log, base or --by", "program or its words", "program, or a file that its words name,")
N = r"(?:0|[1-9]\d{0,18})"
RANGE = f"{N}(?:-{N})?"
RECORD = re.compile(
    rf"ran cut ({N}) choice ([!-~]+) marks ({N}) (?:answer ({N})|signal ({N})|(out of time)) looked (-|{RANGE}(?:,{RANGE})*)",
    re.A,
)
MOST_RECORDS = 1 << 20


def sectors_of(text, sectors):
    """Returns the sectors of a list of ranges in their order, or None where it is none of a device with that many."""
    found = {}
    for it in [] if text == "-" else text.split(","):
        first, dash, last = it.partition("-")
        first, last = int(first), int(last or first)
        if last >= sectors or dash and first >= last or any(sector in found for sector in range(first, last + 1)):
            return None
        found.update(dict.fromkeys(range(first, last + 1)))
    return list(found)


def verdict_of(answer, signal, late):
    """Returns what a record says that the program ended in, or None where no program ends so."""
    if late:
        return Verdict(OUT_OF_TIME, 0)
    if answer is not None:
        return Verdict(EXIT, int(answer)) if int(answer) <= 255 else None
    return Verdict(SIGNAL, int(signal)) if 1 <= int(signal) <= 127 else None


class Record:
    """A record: its line, its verdict, and those sectors at which the program looked that count, in order. `log` has what the program did to
    the image, where that was noted."""

    __slots__ = ("line", "verdict", "looked", "log")

    def __init__(self, line, verdict, looked):
        self.line, self.verdict, self.looked, self.log = line, verdict, looked, None

    def is_good(self):
        return self.verdict.is_good()


class Node:
    """A place in the tree of records: those that end there, and the ways on, by a sector and what it holds."""

    __slots__ = ("records", "ways")

    def __init__(self):
        self.records, self.ways = [], {}


class Known:
    """All records of a log, whose images are those without added flushes. `head` has the lines that stand before them. `are_blind` says
    whether there are some, and none of them looked at a sector that the log writes."""

    def __init__(self, images, head):
        self.images, self.head, self.first = images, head, {}
        self.lines = self.count = self.place = 0
        self.are_blind = False

    def read(self, line):
        """Takes the next line: one of the head, which may stand there again, or a record, which is returned."""
        self.lines += 1
        if self.place < len(self.head):
            return self.read_head(line)
        if line != self.head[0]:
            return self.read_record(line)
        self.place = 1
        return None

    def read_head(self, line):
        """Takes a line of the head, which has to be that of the run."""
        if line != self.head[self.place]:
            raise self.refusal(f"is of another {OTHER[self.place - 1]}" if self.place else "isn't the first line of records")
        self.place += 1

    def test_begun(self):
        """Refuses records of which a head is cut off, or isn't there."""
        if self.place < len(self.head):
            self.lines += 1
            raise self.refusal("lacks a line of the head" if self.lines > 1 else "isn't there: it has no records")

    def image_said(self, cut, text):
        """Returns the image of a choice as a record has it, or None where a cut has no such choice."""
        parts, fates = {part: at for at, part in enumerate(self.images.at_risk(cut))}, fates_of(text)
        if fates is None or any(part not in parts or fate not in TORN or fate == WHOLE for part, fate in fates):
            return None
        places = [parts[part] for part, _fate in fates]
        return self.images.image_of(cut, dict(fates)) if all(one < other for one, other in zip(places, places[1:])) else None

    def read_record(self, line):
        """Takes a record, which has to be one of the log."""
        found = RECORD.fullmatch(line)
        cut = int(found[1]) if found else None
        if found is None or cut > len(self.images.entries) or self.count == MOST_RECORDS:
            raise self.refusal("isn't a record of this log")
        image, looked, verdict = self.image_said(cut, found[2]), sectors_of(found[7], self.images.sectors), verdict_of(found[4], found[5], found[6])
        if None in (image, looked, verdict) or self.images.marks[cut] != int(found[3]):
            raise self.refusal("isn't a record of this log")
        return self.add(Record(self.lines, verdict, [it for it in looked if self.images.counts(it)]), image, int(found[3]))

    def refusal(self, what):
        return Refusal(f"line {self.lines} of the records {what}")

    def add(self, record, image, marks):
        """Adds a record, which may not contradict an earlier one, and returns it."""
        first = self.first.setdefault((marks, image.images.view), Node())
        others = [it for it in self.beside(first, image, set(record.looked)) if it.verdict != record.verdict]
        if others:
            earlier = min(it.line for it in others)
            raise self.refusal(f"contradicts line {earlier}: the program looks at more than the image and its marks, or a look was missed")
        at = first
        for sector in record.looked:
            at = at.ways.setdefault(sector, {}).setdefault(image.sector(sector), Node())
        at.records.append(record)
        self.count += 1
        self.are_blind = (self.count == 1 or self.are_blind) and not any(map(self.images.covers, record.looked))
        return record

    @staticmethod
    def beside(first, image, looked):
        """Yields the records that agree with an image in each sector that is looked at by both."""
        waiting = [first]
        while waiting:
            node = waiting.pop()
            yield from node.records
            for sector, ways in node.ways.items():
                waiting += filter(None, [ways.get(image.sector(sector))]) if sector in looked else ways.values()

    def telling(self, image, marks):
        """Returns the first record that tells an image, or None."""
        key = marks, image.images.view
        waiting, found = [self.first[key]] if key in self.first else [], None
        while waiting:
            node = waiting.pop()
            if node.records and (found is None or node.records[0].line < found.line):
                found = node.records[0]
            waiting += filter(None, (ways.get(image.sector(sector)) for sector, ways in node.ways.items()))
        return found
