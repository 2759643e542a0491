#!/usr/bin/env python3
"""The cure of a run once more, in the plainest form.

Written from docs/CRASH-MODEL.md, 'Where a flush helps' and 'Added flushes', and docs/COMMANDS.md, 'cure', and docs/OUTPUT.md, 'The text of `cure`', and from
nothing of the program under test. Windows and places are found as they are defined: by looking at all of them.

    python3 tests/models/cure_model.py

holds the model against the laws that the documents state of windows and places, on every image of small logs and on lists of
windows, each time by trying all flushes there are. It prints `N passed, M failed`, and needs no program.
"""
import random
import sys
from dataclasses import dataclass
from itertools import combinations
from math import comb

import rooms

rooms.enter()

from model import LOST, LOST_OR_TORN, Image, Run, failing_line, head
from notation import DISCARD, FLUSH, FUA, MARK, D, Entry, F, M, W

# How many images a run may have.
MOST = 16777216


@dataclass(frozen=True)
class Window:
    """The entries right before which a flush takes an image away: from `start` to `end`."""

    start: int
    end: int

    def holds(self, place):
        return self.start <= place <= self.end


@dataclass(frozen=True)
class Failure:
    """A program that fails on an image: its failing line, and the window of the image or None."""

    program: int
    line: str
    window: object


@dataclass(frozen=True)
class Missing:
    """A flush that is missing right before entry `at`; it may stand before any entry from `first` on. `failing` failures are
    counted there."""

    at: int
    first: int
    failing: int


def may_end(image, entry):
    """Whether something of an entry arrived, or it is a mark."""
    parts = [part for part in image.run.parts if part.entry == entry]
    lost = [part for part, fate in image.departures if part.entry == entry and fate == "drop"]
    return len(parts) > len(lost) or bool(image.run.entries[entry].flags & MARK)


def window_of(image):
    """The window of an image, or None."""
    if not image.departures:
        return None
    start = min(part.entry for part, _fate in image.departures) + 1
    ends = [entry for entry in range(start, image.cut) if may_end(image, entry)]
    return Window(start, max(ends)) if ends else None


def places_of(windows):
    """The places that are picked: each time the end of the first window, by its end, that holds none of those so far."""
    found = []
    while True:
        left = [it.end for it in windows if not any(it.holds(place) for place in found)]
        if not left:
            return found
        found.append(min(left))


def missing(windows):
    """The flushes that are missing for some windows, each of which is counted at the first place that it holds."""
    places = places_of(windows)
    counted = {place: [] for place in places}
    for window in windows:
        counted[min(place for place in places if window.holds(place))].append(window)
    return [Missing(place, max(it.start for it in own), len(own)) for place, own in counted.items()]


def failures(run, checkers):
    """The failures of a run, in the order of its failing lines."""
    found = []
    for image in run.images():
        for number, checker in enumerate(checkers):
            answer, codes = checker.judge(image)
            if answer != 0:
                found.append(Failure(number, failing_line(image, number, answer, codes), window_of(image)))
    return found


def images_at(run, cut):
    """How many images a cut has."""
    parts, fates = len(run.volatile(cut)), len(LOST_OR_TORN if run.tears else LOST)
    return sum(comb(parts, count) * fates**count for count in range(run.bound + 1))


def too_many_at(run):
    """The cut with which there are too many images, or None."""
    total = 0
    for cut in run.wanted_cuts():
        total += images_at(run, cut)
        if total > MOST:
            return cut
    return None


def with_flushes(run, places):
    """The run of the log with a flush at each of these places as well."""
    flush = (*run.flush, *places)
    return Run(run.recorded, run.sectors, run.cuts, run.bound, run.tears, run.by, flush, run.first, run.last, run.base)


def last_line(run, found):
    """The last line of the report of a run."""
    images = sum(images_at(run, cut) for cut in run.wanted_cuts())
    failing = len({it.line.split(" program ")[0] for it in found})
    return f"images {images} failing {failing} lines {len(found)}\n"


def begin(run, checkers, found):
    """What is said of the first run."""
    text = "crash cure 1\n" + head(run, checkers, False)
    for number in range(len(checkers)):
        own = [it for it in found if it.program == number]
        text += f"program {number} failing {len(own)} uncured {sum(1 for it in own if it.window is None)}\n"
    uncured = [it for it in found if it.window is None]
    return text + (f"no flush cures {uncured[0].line}\n" if uncured else "")


def cure(run, checkers):
    """What `cure` prints of a run that isn't refused."""
    found = failures(run, checkers)
    text, number = begin(run, checkers, found), 0
    while windows := [it.window for it in found if it.window]:
        number += 1
        flushes = missing(windows)
        for it in flushes:
            text += f"round {number} flush before {it.at} from {it.first} failing {it.failing}\n"
        run = with_flushes(run, [it.at for it in flushes])
        if (cut := too_many_at(run)) is not None:
            return text + f"refused 12 at {cut}\n"
        found = failures(run, checkers)
    return text + last_line(run, found)


# The laws


def is_choice(run, cut, departures):
    """Whether these departures are a choice at a cut."""
    volatile = {part.name for part in run.volatile(cut)}
    return len(departures) <= run.bound and all(part.name in volatile for part, _fate in departures)


def up_to(image, entry):
    """What departs of the entries up to that one."""
    return tuple((part, fate) for part, fate in image.departures if part.entry <= entry)


def only_of(image, entry):
    """What departs of that entry alone."""
    return tuple((part, fate) for part, fate in image.departures if part.entry == entry)


def same(image, other):
    """Whether two images have the same device, after as many marks."""
    return (image.content(), image.marks()) == (other.content(), other.marks())


def is_left(image, cut, departures, places):
    """Whether these departures are a choice at a cut when flushes stand at these places, and leave the device of the image there,
    after as many marks; where none of the places is before the cut, in the epoch in which they leave it without flushes."""
    run = with_flushes(image.run, places)
    late = all(place >= cut for place in places)
    there = Image(0, cut, departures, run)
    return is_choice(run, cut, departures) and same(image, there) and (not late or there.epoch() == image.run.epoch(cut))


def cuts_stay(run, places):
    """Whether the cuts that are explored are explored with these flushes too."""
    return set(run.wanted_cuts()) <= set(with_flushes(run, places).wanted_cuts())


def some_places(run):
    """Sets of places: each alone, all together, and all but one."""
    every = range(len(run.entries))
    return [(), *((place,) for place in every), tuple(every), *(tuple(it for it in every if it != place) for place in every)]


def is_left_before(image):
    """Whether an image without a window is left as the documents say, whatever flushes are added. Where nothing departs it stays.
    Else it is that of the cut right after the first entry of which something departs, where nothing else does. Where nothing of
    that entry arrived, it is that of the cut before it too, where nothing departs."""
    run, epoch = image.run, image.epoch()
    if not image.departures:
        return all(is_left(image, image.cut, (), places) for places in some_places(run))
    first = image.departures[0][0].entry
    own, lost = only_of(image, first), not may_end(image, first)
    if first >= image.cut or run.epoch(first + 1) != epoch or run.epoch(first) + bool(run.entries[first].flags & FLUSH) != epoch:
        return False
    return all(
        is_left(image, first + 1, own, places) and (not lost or is_left(image, first, (), places)) and cuts_stay(run, places)
        for places in some_places(run)
    )


def window_holds(image, window):
    """Whether a flush in the window of an image takes it away, what departs up to its end too, and flushes elsewhere don't."""
    run, end, some = image.run, window.end + 1, up_to(image, window.end)
    if run.epoch(end) != image.epoch():
        return False
    for places in some_places(run):
        flushed = with_flushes(run, places)
        left, left_before = is_choice(flushed, image.cut, image.departures), is_choice(flushed, end, some)
        if any(window.holds(place) for place in places):
            if left or left_before:
                return False
        elif not is_left(image, end, some, places) or all(place < window.start for place in places) and not left:
            return False
    outside = tuple(place for place in range(len(run.entries)) if not window.holds(place))
    return is_left(image, end, some, outside)


def windows_hold(run):
    """Whether the windows of all images of a run are as the documents say."""
    found = [(image, window_of(image)) for image in run.images()]
    return all(window_holds(image, window) if window else is_left_before(image) for image, window in found)


def places_hold(windows, entries):
    """Whether each window holds a place, no fewer places do, and each window is counted once and holds all of from to at."""
    found = missing(windows)
    places = [it.at for it in found]
    covered = all(any(it.holds(place) for place in places) for it in windows)
    fewer = any(
        all(any(it.holds(place) for place in some) for it in windows)
        for count in range(len(places))
        for some in combinations(range(entries), count)
    )
    return covered and not fewer and sum(it.failing for it in found) == len(windows) and places == sorted(places)


def some_log(chance):
    """A small log of any entries."""
    kinds = [
        lambda: W(chance.randrange(2), 1, chance.randrange(1, 9), chance.choice([0, 0, 0, FUA, FLUSH])),
        lambda: W(0, 2, chance.randrange(1, 9), chance.choice([0, 0, FUA])),
        lambda: D(0, chance.choice([1, 2]), chance.choice([0, FLUSH])),
        lambda: M("m"),
        lambda: F,
        lambda: Entry(flags=chance.choice([0, FUA, DISCARD])),
    ]
    return [chance.choice(kinds)() for _number in range(chance.randrange(1, 7))]


def main():
    chance = random.Random(1)
    found = []
    for by in ["sector", "write"]:
        for tears in [False, True]:
            for _number in range(60):
                run = Run(some_log(chance), 2, bound=1 if tears else 2, tears=tears, by=by)
                found.append(windows_hold(run))
                windows = [it for it in map(window_of, run.images()) if it]
                found.append(places_hold(windows[:8], len(run.entries)))
    for _number in range(300):
        pairs = [sorted(chance.sample(range(1, 9), 2)) for _window in range(chance.randrange(1, 7))]
        windows = [Window(start, end - chance.randrange(end - start + 1)) for start, end in pairs]
        found.append(places_hold(windows, 9))
    print(f"{found.count(True)} passed, {found.count(False)} failed")
    return 0 if all(found) else 1


if __name__ == "__main__":
    sys.exit(main())
