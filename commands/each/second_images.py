"""The images that a second crash leaves: those of the log at its cut, with what a program did to them until it was cut too.

The entries of a second log follow those of the log before the cut: its entry e has the number `cut + e`, so that parts, choices and rows
are those of one log (docs/CRASH-MODEL.md, 'A crash while recovery is at work').
"""
import re

from commands.each.second_calls import OWN_SECTORS
from commands.each.served_log import SECTOR, LogImage, LogImages, fates_of, kept, text_of
from commands.shared.faults import Refusal

# A choice of both logs: that of the first, the second cut, its choice, and the name of the second log, with what stands for its device.
SECOND = re.compile(r"(\S+) then cut (\d+) choice (\S+) of (\S+) (\S+)", re.A)


class SeenImages(LogImages):
    """The images of a log where each look counts, since a second log may cover any sector."""

    def counts(self, _number):
        return True


class SecondImages:
    """The images of a second log, which has a name, over those of a cut of the first."""

    def __init__(self, first, cut, log, name):
        self.first, self.cut, self.log, self.name = first, cut, log, name
        self.sectors, self.by_write, self.unders = first.sectors, first.by_write, {}
        self.view = log.view
        self.marks = [first.marks[cut]] * (cut + len(log.entries) + 1)

    def counts(self, _number):
        return True

    def initial(self, number):
        return self.log.laid.initial(number) if number >= OWN_SECTORS else self.first.initial(number)

    def part(self, entry, place):
        """Returns the part of a sector of an entry."""
        return entry, None if self.by_write else place

    def of_second(self, number):
        """Returns the parts of the second log at risk at a second cut, in order."""
        found = []
        for entry in self.log.at_risk(number):
            found += [(self.cut + entry, place) for place in ([None] if self.by_write else self.log.entries[entry].held)]
        return found

    def at_risk(self, number):
        """Returns the parts of both logs at risk: what the first crash left is settled, whatever was synced since."""
        return self.first.at_risk(self.cut) + self.of_second(number - self.cut)

    def covered(self, part):
        """Returns the sectors that a part covers."""
        entry, place = part
        if entry < self.cut:
            return self.first.covered(part)
        it = self.log.entries[entry - self.cut]
        return [it.numbers[at] for at in (it.held if place is None else [place])]

    def holding(self, sector, number):
        """Returns the entries of the second log before a cut that hold a sector, each with its place there."""
        return [(self.cut + it, place) for it, place in self.log.holding.get(sector, ()) if self.cut + it < number]

    def over(self, sector, number):
        """Yields what covers a sector before a cut, in order: the entry, and the place of the sector in it."""
        yield from self.first.over(sector, self.cut)
        yield from self.holding(sector, number)

    def back_over(self, sector, number):
        """Yields the same, the last first."""
        yield from reversed(self.holding(sector, number))
        yield from self.first.back_over(sector, self.cut)

    def content(self, entry, place):
        """Returns what an entry leaves in a sector that it covers."""
        return self.first.content(entry, place) if entry < self.cut else self.log.entries[entry - self.cut].held[place]

    def stretch(self, fate, entry, place):
        """Returns which bytes of a sector of a part that isn't whole reach the device."""
        if entry < self.cut:
            return self.first.stretch(fate, entry, place)
        count = 1 if not self.by_write else len(self.log.entries[entry - self.cut].numbers)
        at = 0 if not self.by_write else SECTOR * place
        return tuple(min(max(it - at, 0), SECTOR) for it in kept(fate, SECTOR * count))

    def under(self, fates):
        """Returns the image of the first log by the fates of parts of both."""
        own = tuple((part, fate) for part, fate in fates.items() if part[0] < self.cut)
        if own not in self.unders:
            self.unders[own] = self.first.image_of(self.cut, dict(own))
        return self.unders[own]

    def image_of(self, number, fates):
        """Returns the image of a cut by the fates of those parts that aren't whole."""
        return SecondImage(self, number, fates)

    def is_mark(self, entry):
        return entry < self.cut and self.first.is_mark(entry)

    def has_parts(self, entry):
        return self.first.has_parts(entry) if entry < self.cut else bool(self.log.entries[entry - self.cut].held)

    def said(self, number, fates):
        """Returns the first cut of an image, and the choices of both logs as they are told to who judges it."""
        own, after = self.halves(fates)
        return self.cut, f"{text_of(own)} then cut {number - self.cut} choice {text_of(after)} of {self.name} {self.view or '-'}"

    def number_of(self, number, whole):
        """Returns a number of the image of a cut in which nothing is lost, by that of the image that the first crash leaves so."""
        image, under, whole = self.image_of(number, {}), self.under({}), whole ^ hash(self.view)
        for sector in self.log.holding:
            whole ^= hash((sector, under.sector(sector))) ^ hash((sector, image.sector(sector)))
        return whole

    def halves(self, fates):
        """Returns the fates, or what else there is of parts, of the first log and of the second one, whose entries are numbered from 0."""
        own = {part: it for part, it in fates.items() if part[0] < self.cut}
        return own, {(entry - self.cut, place): it for (entry, place), it in fates.items() if entry >= self.cut}


class LaidImage:
    """An image that a second crash leaves on the device of its calls, by the sectors of that."""

    def __init__(self, image):
        self.image, self.images, self.laid = image, image.images, image.images.log.laid
        self.sectors = self.laid.sectors

    def sector(self, number):
        return self.image.sector(self.laid.number(number))


class SecondImage(LogImage):
    """One image that a second crash leaves."""

    def __init__(self, images, cut, fates):
        super().__init__(images, cut, fates)
        self.under = images.under(fates)

    def found(self, number):
        """Looks up a sector; where the second log doesn't hold it, in the image that the first crash left."""
        if number in self.images.log.holding:
            return super().found(number)
        return self.images.initial(number) if number >= OWN_SECTORS else self.under.sector(number)


def image_said(first, cut, text, logs):
    """Returns the image of a cut and a choice as it is told to who serves it: of the log, or of both. `logs` has the second ones by name."""
    found = SECOND.fullmatch(text)
    if found is None:
        return first.image(cut, text)
    fates = dict(fates_of(found[1]))
    fates.update({(cut + entry, place): fate for (entry, place), fate in fates_of(found[3])})
    images = SecondImages(first, cut, logs[found[4]], found[4])
    if found[5] != (images.view or "-"):
        raise Refusal("a second log isn't the same on all images of its case: this is a bug of crashbpf-each")
    return images.image_of(cut + int(found[2]), fates)
