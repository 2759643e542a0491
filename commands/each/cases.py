"""The cases of a cut, as far as records tell them (docs/CRASH-MODEL.md, 'Any number of losses').

A case leaves each part at risk some fates. Where a record tells the image of its first fates, the sectors at which the program looked there
say whether a part splits it, into a case for each group of fates that show something else. Where no record does, the case is open, and that
image is wanted. What was told once stays so: later records stand after those that told it.
"""
from typing import NamedTuple

from commands.each.served_log import SECTOR, WHOLE

EIGHTH = SECTOR // 8
EVERY = 0xFF
LOST = ("whole", "drop")
TORN = (*LOST, *(f"{kind}{eighths}" for kind in ("head", "tail") for eighths in range(1, 8)))
MOST_TORN = 1


class Asked(NamedTuple):
    """What is asked of losses: whether parts are torn, and how many at most; how many at most aren't whole; whether the search of a cut ends
    at its first failing case; and after how many cases it ends. None stands for no limit."""

    tears: bool = False
    torn: int = 0
    most: int | None = None
    at_failing: bool = False
    cases: int | None = None

    def fates(self):
        return TORN if self.tears else LOST


def differing(one, other):
    """Which of the eight pieces of two sectors differ, as bits."""
    if one == other:
        return 0
    return sum(1 << it for it in range(8) if one[EIGHTH * it : EIGHTH * (it + 1)] != other[EIGHTH * it : EIGHTH * (it + 1)])


class Unit(NamedTuple):
    """A part at risk in the row of a sector: which pieces it shows there with each fate, and in which something below it differs."""

    part: tuple
    shown: dict
    matters: int


class Case:
    """A case: the fates that it leaves those parts of which it doesn't leave all; the record that tells it; and the cases it is split into,
    none for a leaf."""

    __slots__ = ("known", "record", "below")

    def __init__(self, known, record=None):
        self.known, self.record, self.below = known, record, None

    def surely(self, fates):
        """Returns how many parts have one of these fates alone."""
        return sum(all(it in fates for it in some) for some in self.known.values())


class Cut:
    """A cut: its parts at risk, and their rows."""

    def __init__(self, images, number, asked):
        self.images, self.number, self.asked = images, number, asked
        self.parts, self.whole = images.at_risk(number), images.image_of(number, {})
        self.at_risk, self.fates, self.rows = set(self.parts), asked.fates(), {}
        self.beyond = [it for it in self.fates if it not in LOST], [it for it in self.fates if it != WHOLE]

    def choice(self, case):
        """Returns the representative of a case: the first fate of each part, where that isn't whole."""
        return {part: case.known[part][0] for part in self.parts if case.known.get(part, LOST)[0] != WHOLE}

    def image(self, case):
        return self.images.image_of(self.number, self.choice(case))

    def changed(self, case):
        """Returns a number of what the representative of a case has otherwise than the image in which nothing is lost."""
        choice, number = self.choice(case), 0
        image = self.images.image_of(self.number, choice)
        for sector in {it for part in choice for it in self.images.covered(part)}:
            number ^= hash((sector, self.whole.sector(sector))) ^ hash((sector, image.sector(sector)))
        return number

    # Which part splits a case

    def row(self, sector):
        """Returns the parts at risk over a sector, the last one first, down to the first part that isn't."""
        if sector not in self.rows:
            self.rows[sector] = self.row_of(sector)
        return self.rows[sector]

    def row_of(self, sector):
        """Makes the row of a sector from what stands below: a piece of a unit matters where something below it differs there."""
        units, below = [], [self.images.initial(sector)]
        for entry, place in self.images.over(sector, self.number):
            content, part = self.images.content(entry, place), self.images.part(entry, place)
            if part not in self.at_risk:
                units, below = [], [content]
                continue
            matters = 0
            for it in set(below):
                matters |= differing(content, it)
            units.append(Unit(part, {fate: self.pieces(fate, entry, place) for fate in self.fates}, matters))
            below.append(content)
        return units[::-1]

    def pieces(self, fate, entry, place):
        """Returns the pieces of a sector that a part shows with a fate, as bits."""
        if fate == WHOLE:
            return EVERY
        first, end = self.images.stretch(fate, entry, place)
        return sum(1 << it for it in range(8) if first <= EIGHTH * it < end)

    def split_in(self, case, sector):
        """Returns the first part of a row of which the fates of a case show more than one thing, and its groups, or None."""
        wanted = EVERY
        for unit in self.row(sector):
            matters, groups = wanted & unit.matters, {}
            for fate in case.known.get(unit.part, self.fates):
                groups.setdefault(unit.shown[fate] & matters, []).append(fate)
            if len(groups) > 1:
                return unit.part, list(map(tuple, groups.values()))
            wanted = matters & ~next(iter(groups))
        return None

    def split(self, case):
        """Returns the cases into which a case that is told is split. The first group has the image of the case itself."""
        found = next(filter(None, (self.split_in(case, it) for it in case.record.looked)), None)
        if found is None:
            return ()
        part, (first, *others) = found
        return (Case({**case.known, part: first}, case.record), *(Case({**case.known, part: it}) for it in others))


class Found:
    """What the search of a cut has come to: leaves and open cases, in the order of the tree; how many cases were left out as torn or lost
    beyond what is asked; and how many wait where it ended early."""

    def __init__(self):
        self.leaves, self.open, self.torn_beyond, self.lost_beyond, self.pending = [], [], 0, 0, 0

    def failing(self):
        """Returns the leaves that fail, each with its number among all."""
        return [(number, it) for number, it in enumerate(self.leaves) if not it.record.is_good()]


class Search:
    """The search of a cut, which is gone on with as records come. It begins with the case of some fates, or of all. `whole` is a number of the
    image in which nothing is lost there."""

    def __init__(self, cut, whole, known=None):
        self.cut, self.whole, self.first, self.found = cut, whole, Case(known or {}), None

    def go(self, known):
        """Searches as far as the records tell, and returns what was found. Where nothing was open no record changes anything."""
        if self.found is None or self.found.open:
            self.found, waiting = Found(), [self.first]
            while waiting:
                if self.is_ended():
                    self.found.pending = len(waiting)
                    break
                waiting += reversed(self.below(waiting.pop(), known))
        return self.found

    def is_ended(self):
        """Whether the search ends here, though cases wait."""
        found, asked = self.found, self.cut.asked
        is_full = asked.cases is not None and len(found.leaves) + len(found.open) >= asked.cases
        return is_full or asked.at_failing and found.leaves and not found.leaves[-1].record.is_good()

    def below(self, case, known):
        """Settles a case, and returns the cases that stand in its place."""
        found, asked, (torn, lost) = self.found, self.cut.asked, self.cut.beyond
        if case.surely(torn) > asked.torn:
            found.torn_beyond += 1
            return ()
        if asked.most is not None and case.surely(lost) > asked.most:
            found.lost_beyond += 1
            return ()
        if case.record is None:
            case.record = known.telling(self.cut.image(case), self.cut.images.marks[self.cut.number])
        if case.record is None:
            found.open.append(case)
            return ()
        if case.below is None:
            case.below = self.cut.split(case)
        if not case.below:
            found.leaves.append(case)
        return case.below
