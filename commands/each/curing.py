"""A cure by every loss: which flushes a log lacks, tried round by round by the program that judges.

A round takes the log with the flushes so far, and ends the search of each cut at its first failing case. The windows of these cases say
where flushes help, and the fewest places that take all these cases away are added. So it goes on until nothing fails that has a window.
Where a log has nothing flushed, such rounds pick too many places. So after some of them it begins anew: with one loss at all cuts, until
nothing fails, and then goes on from these flushes with every loss. In the end each flush is tried without, so none is there for nothing.
"""
import re
from typing import NamedTuple

from commands.each.spot import CASE
from commands.each.step import flushes_of
from commands.shared.faults import Refusal

TITLE = "crash cure outside 1"
# After as many rounds of every loss it begins anew.
PATIENCE = 4
MOST_FLUSHES = 64
TOTALS = re.compile(r"cuts \d+ cases \d+ failing (\d+) torn beyond \d+ lost beyond \d+ open (\d+) stopped (\d+)( complete| of these cuts)?")
WINDOW = re.compile(r"(\d+)[.][.](\d+)")
HEAD = 5


class Window(NamedTuple):
    """Where a flush takes a case away: right before each entry from the first to the last."""

    first: int
    last: int


def places(windows):
    """Returns the fewest places of which each window has one, rising: each time the end of the first window, by its end, that has none."""
    found = []
    for it in sorted(windows, key=lambda one: one.last):
        if not found or it.first > found[-1]:
            found.append(it.last)
    return found


class Found:
    """What a text of cases has: its lines, the windows of its failing cases, and those that have none."""

    def __init__(self, text):
        self.lines = text.decode().splitlines()
        totals = TOTALS.fullmatch(self.lines[-1])
        cases = [(it, CASE.fullmatch(it)) for it in self.lines[HEAD:-1]]
        if not totals or not all(case for _line, case in cases):
            raise Refusal("crashbpf prints no text of cases")
        self.failing, self.open, self.stopped = (int(totals[it]) for it in (1, 2, 3))
        self.is_complete = bool(totals[4])
        windows = [(line, case, WINDOW.fullmatch(case["flush"])) for line, case in cases]
        self.windows = [Window(int(it[1]), int(it[2])) for _line, _case, it in windows if it]
        self.helpless = {int(case["cut"]): line for line, case, it in reversed(windows) if not it}

    def totals(self):
        return self.lines[-1]


def listed(flushes):
    return ",".join(map(str, sorted(flushes))) or "-"


class Cure:
    """The rounds of a cure. `step` is at last the one of the text that they end with."""

    def __init__(self, step, rounds):
        self.first, self.step, self.rounds = step, step, rounds
        self.given = flushes_of(step.given)
        self.told, self.turn, self.said = [], 0, []

    def explored(self, what, flushes, changes):
        """Explores the log with some flushes, and tells of it. Returns the status, and what was found."""
        if len(flushes) > MOST_FLUSHES:
            raise Refusal(f"a cure would take more than {MOST_FLUSHES} flushes: put flushes into what was recorded, and record it anew")
        before = self.rounds.judged
        self.step = self.first.asking({"--flush": ",".join(map(str, sorted(flushes))) or None, **changes})
        self.rounds.go(self.step)
        status, text, self.said = self.step.text()
        found = Found(text)
        more = "" if found.is_complete or found.failing else " incomplete"
        self.told.append(f"{what} flushes {listed(flushes)} failing {found.failing} images {self.rounds.judged - before}{more}")
        return status, found

    def every_loss(self, what, flushes):
        return self.explored(what, flushes, {"--stop-at-failing": True})

    def repeated(self, what, flushes, changes, most=None):
        """Makes rounds until no case is found that a flush helps against, or there were as many as are allowed. Returns the flushes, the
        first status, what was found last, and whether it ended."""
        statuses = []
        while most is None or len(statuses) < most:
            self.turn += 1
            status, found = self.explored(f"round {self.turn} {what}", flushes, changes)
            statuses.append(status)
            more = flushes | set(places(found.windows))
            if more == flushes:
                if found.windows:
                    raise Refusal("a flush that stands in the window of a case doesn't take it away: crashbpf's text and its options disagree")
                return flushes, statuses[0], found, True
            flushes = more
        return flushes, statuses[0], found, False

    def found_flushes(self):
        """Returns the flushes with which nothing fails that a flush helps against, the status of the log as it is, and what was found."""
        flushes, status, found, is_done = self.repeated("every loss", self.given, {"--stop-at-failing": True}, PATIENCE)
        if not is_done:
            flushes, _status, _found, _done = self.repeated("one loss", self.given, {"--at-most": "1", "--cuts": "all"})
            flushes, _status, found, _done = self.repeated("every loss", flushes, {"--stop-at-failing": True})
        return flushes, status, found

    def pruned(self, flushes, found):
        """Returns the flushes without those that aren't needed: each is tried without."""
        for it in sorted(flushes - self.given, reverse=True):
            _status, other = self.every_loss(f"without {it}", flushes - {it})
            if not other.windows and other.helpless.keys() == found.helpless.keys():
                flushes, found = flushes - {it}, other
        return flushes

    def go(self):
        """Makes all rounds. Returns the status of the log as it is, the text of the cure, and the notes beside its last text."""
        flushes, status, found = self.found_flushes()
        flushes = self.pruned(flushes, found)
        self.rounds.compare()
        _status, found = self.every_loss("last", flushes)
        lines = [TITLE, *found.lines[1:HEAD], *self.told]
        lines += [f"no flush cures {line}" for _cut, line in sorted(found.helpless.items())]
        lines += [f"flush before {it}" for it in sorted(flushes - self.given)]
        return status, "".join(f"{it}\n" for it in [*lines, found.totals()]).encode(), self.said
