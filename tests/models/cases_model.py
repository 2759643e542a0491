#!/usr/bin/env python3
"""The cases of a log of which any number of writes may be lost, and the text of them, in the plainest form.

Written from docs/CRASH-MODEL.md, 'Any number of losses', and docs/OUTPUT.md, 'The text of cases', and from nothing of the program under
test. A checker is a function of a view, which it asks for sectors; what it asked for, in that order, is its footprint.

By itself it tries that these rules are sound as they stand there:

    python3 tests/models/cases_model.py [--runs N] [--seed S]

N is 400 where it isn't given, S is 1. A run has a log of two to seven entries on a device of two to four sectors, and a checker that
reads some bytes, of which sectors hangs on what it found. All choices of each cut are made, one by one. Each has to be in exactly one
case, or if it has more losses than are asked for in at most one, and the checker ends on its image as its case says. By the text alone
it is told which choices fail, and in what. Each image of a cut is one of a last cut. A flush in the window of a case takes all its
images away, and a flush anywhere else leaves one of them, or its like at an earlier cut. As many logs of up to 14 entries are laid out
in parts: each cut where cases are looked for is of exactly one part. No program is run. It takes half a minute, and is no part of the
gate.
"""
import argparse
import itertools
import random
import sys
from dataclasses import dataclass, field

sys.dont_write_bytecode = True

import rooms

rooms.enter()

from model import HEADS, TAILS, Checker, Image, Run, departed, kept, place_of, shown_lines
from notation import FLUSH, FUA, MARK, SECTOR, OfInputs, random_entry

PIECES, PIECE = 8, SECTOR // 8
LOST = ["whole", "drop"]
TORN = [*LOST, *HEADS, *TAILS]


@dataclass(frozen=True)
class Losses:
    """What is asked of losses: how many parts may be torn, and how many at most may not be whole; None for what isn't asked. Of records
    (known_model.py) also whether the search of a cut ends at its first failing case, and after how many cases it ends."""

    torn: object = None
    most: object = None
    at_failing: bool = False
    cases: object = None

    def options(self):
        """The options of the command line that ask for it."""
        words = [(it, value) for it, value in (("--torn", self.torn), ("--at-most", self.most), ("--cases", self.cases)) if value is not None]
        return "--bound any" + "".join(f" {name} {value}" for name, value in words) + " --stop-at-failing" * self.at_failing

    def end(self, found):
        """Whether the search of a cut that has come to these cases ends there."""
        failing = any(not good for _case, _ending, good in found.leaves[-1:])
        return self.at_failing and failing or self.cases is not None and len(found.leaves) + len(found.open) >= self.cases

    def most_torn(self, run):
        return (self.torn or 1) if run.tears else 0


ANY = Losses()


@dataclass(frozen=True)
class View(Image):
    """A crash image as a checker sees it, with the sectors that it looked at, in the order of its first looks."""

    looked: dict = field(default_factory=dict)

    def sector(self, number):
        if number not in self.looked:
            self.looked[number] = super().sector(number)
        return self.looked[number]


def ended(outcome):
    """What a checker ended in, in words, and whether the image is good by it. It tells an answer and codes, or both words and that; and
    records tell None of an image of which they don't know it."""
    if outcome is None:
        return None, None
    if isinstance(outcome, tuple):
        answer, codes = outcome
        return f"answer {answer} codes {','.join(map(str, codes)) or '-'}", answer == 0
    return outcome.text, outcome.good


# Cuts


def is_last_cut(run, cut):
    """Whether no later cut has the images of this one."""
    here = run.entries[cut].flags & (FLUSH | MARK) if cut < len(run.entries) else 0
    before = run.entries[cut - 1].flags & FUA if cut else 0
    return bool(cut == len(run.entries) or here or before)


def judged_cuts(run, losses=ANY):
    """The cuts that are explored: of all cuts the last ones, and the end of the range."""
    wanted = run.wanted_cuts()
    if run.cuts != "all" or losses.most is not None:
        return wanted
    return [cut for cut in wanted if is_last_cut(run, cut) or cut == run.last]


def at_risk(run, cut):
    """The parts of which a cut may lose something: the volatile ones, and those of a write with FUA that is in flight."""
    return [
        part
        for part in run.parts
        if part.entry < cut
        and not run.flushes(part.entry + 1, cut)
        and (part.entry == cut - 1 or not run.entries[part.entry].flags & FUA)
    ]


def shown(part, fate, number):
    """The pieces of a sector that a part shows with a fate."""
    start = SECTOR * (number - part.sector)
    first, end = kept(fate, len(part.content))
    return frozenset(it for it in range(PIECES) if first <= start + PIECE * it < end)


def pieces_of(sector):
    return [sector[PIECE * it : PIECE * (it + 1)] for it in range(PIECES)]


# Cases


class Case:
    """A case of a cut: the parts of which it doesn't say all fates, each with those that it has."""

    def __init__(self, cut, known):
        self.cut, self.known = cut, known

    def fates(self, part):
        return self.known.get(part, self.cut.fates)

    def representative(self):
        """The image of the choice that gives each part the first of its fates."""
        firsts = [(part, self.fates(part)[0]) for part in self.cut.parts]
        return View(None, self.cut.number, tuple(it for it in firsts if it[1] != "whole"), self.cut.run)

    def with_part(self, part, fates):
        return Case(self.cut, {**self.known, part: fates})

    def surely(self, test):
        """How many parts are so whatever becomes of them."""
        return sum(all(map(test, fates)) for fates in self.known.values())

    def torn(self):
        return self.surely(lambda fate: fate not in LOST)

    def lost(self):
        return self.surely(lambda fate: fate != "whole")

    def holds(self, choice):
        return all(choice[part] in fates for part, fates in self.known.items())


@dataclass
class Found:
    """What the cases of a cut are, each with what the checker ends in there, and how many were left out. Of records also those that are
    open, and those that wait where the search has ended."""

    leaves: list = field(default_factory=list)
    torn_beyond: int = 0
    lost_beyond: int = 0
    open: list = field(default_factory=list)
    pending: list = field(default_factory=list)
    ended: bool = False


class Cut:
    """A cut of a run, with the parts at risk there and what may become of each."""

    def __init__(self, run, number):
        self.run, self.number, self.fates = run, number, TORN if run.tears else LOST
        self.parts = at_risk(run, number)
        self.rows = {}

    def row(self, sector):
        """The parts at risk that cover a sector, the last one first, down to the first that isn't, each with its pieces there; and the
        pieces of what stands below them."""
        if sector not in self.rows:
            self.rows[sector] = self.row_of(sector)
        return self.rows[sector]

    def row_of(self, sector):
        """Returns the parts at risk over a sector, the last one first, and what lies below them."""
        row = []
        for part in reversed([it for it in self.run.parts_over(sector) if it.entry < self.number]):
            start = SECTOR * (sector - part.sector)
            content = pieces_of(part.content[start : start + SECTOR])
            if part not in self.parts:
                return row, content
            row.append((part, content))
        return row, pieces_of(self.run.initial_sector(sector))

    def split_in(self, case, sector):
        """The first part of a sector's row of which the fates of a case show more than one thing, and its groups; else None."""
        row, below = self.row(sector)
        wanted = set(range(PIECES))
        for place, (part, own) in enumerate(row):
            earlier = [*(content for _part, content in row[place + 1 :]), below]
            matter = {it for it in wanted if any(own[it] != other[it] for other in earlier)}
            groups = {}
            for fate in case.fates(part):
                groups.setdefault(shown(part, fate, sector) & matter, []).append(fate)
            if len(groups) > 1:
                return part, list(groups.values())
            wanted = matter - next(iter(groups))
        return None

    def split(self, case, sectors):
        return next(filter(None, (self.split_in(case, it) for it in sectors)), None)

    def explore(self, checker, losses):
        """All cases, depth first."""
        found = Found()
        for case, ending, good in self.walk(checker, losses, found):
            if ending is None:
                found.open.append(case)
            else:
                found.leaves.append((case, ending, good))
            found.ended = losses.end(found)
        return found

    def walk(self, checker, losses, found=None):
        """The leaves, one after the other, each with what the checker ends in there and whether that is good; None for an open case."""
        yield from self.walk_case(Case(self, {}), checker, losses, Found() if found is None else found)

    def walk_case(self, case, checker, losses, found):
        """Yields the leaves below a case, and counts those that are left out."""
        if found.ended:
            found.pending.append(case)
            return
        if case.torn() > losses.most_torn(self.run):
            found.torn_beyond += 1
            return
        if losses.most is not None and case.lost() > losses.most:
            found.lost_beyond += 1
            return
        view = case.representative()
        outcome = ended(checker.judge(view))
        split = self.split(case, list(view.looked))
        if outcome == (None, None) or split is None:
            yield (case, *outcome)
            return
        part, groups = split
        for group in groups:
            yield from self.walk_case(case.with_part(part, group), checker, losses, found)


def first_gone(case):
    """The first entry of which a part can't be whole; None where all may be."""
    gone = [part.entry for part, fates in case.known.items() if "whole" not in fates]
    return min(gone) if gone else None


def window_of(case):
    """The first and the last entry before which a flush takes all images of a case away; None where there is none."""
    run, first = case.cut.run, first_gone(case)
    if first is None:
        return None

    def stays(part):
        return part not in case.cut.parts or "drop" not in case.fates(part)

    ends = [
        entry
        for entry in range(first + 1, case.cut.number)
        if run.entries[entry].flags & MARK or any(it.entry == entry and stays(it) for it in run.parts)
    ]
    return (first + 1, ends[-1]) if ends else None


# The text


def head(run, checkers, losses):
    """Returns the head of the text of cases."""
    text = f"sectors {run.sectors} entries {len(run.entries)} cuts {run.cuts} bound any"
    text += f" tears yes torn {losses.most_torn(run)}" if run.tears else " tears no"
    text += "" if losses.most is None else f" at-most {losses.most}"
    text += (" by write" if run.by == "write" else "") + run.told() + run.told_of_base() + "\n"
    return text + "".join(f"program {number} {it.about}\n" for number, it in enumerate(checkers) if it.about)


def case_line(case, program, number, ending):
    """A line of a case on which a program fails."""
    run, parts = case.cut.run, case.cut.parts
    whole = [part.name for part in parts if case.fates(part) == ["whole"]]
    among = [part for part in parts if 1 < len(case.fates(part)) < len(case.cut.fates)]
    free = sum(len(case.fates(part)) == len(case.cut.fates) for part in parts)
    window = window_of(case)
    text = f"cut {case.cut.number} epoch {run.epoch(case.cut.number)} marks {run.marks(case.cut.number)} program {program} case {number}"
    text += f" {ending} choice {case.representative().choice()} kept {','.join(whole) or '-'}"
    text += f" among {','.join(f'{it.name}:' + '+'.join(case.fates(it)) for it in among)}" if among else ""
    return f"{text} free {free} flush {'none' if window is None else f'{window[0]}..{window[1]}'}\n"


def cases(run, checkers, losses=ANY, inputs=None):
    """What `explore --bound any` prints, by the number of the run's inputs, which a run of a range of the cuts tells; `?` stands for it where
    it isn't given."""
    cuts, lines, total, failing, torn, lost, left = judged_cuts(run, losses), "", 0, 0, 0, 0, 0
    stopped, of_records = 0, any(it.of_records for it in checkers)
    for cut in (Cut(run, number) for number in cuts):
        for program, checker in enumerate(checkers):
            found = cut.explore(checker, losses)
            for number, (case, ending, good) in enumerate(found.leaves):
                lines += "" if good else case_line(case, program, number, ending)
                failing += not good
            total, torn, lost = total + len(found.leaves), torn + found.torn_beyond, lost + found.lost_beyond
            left, stopped = left + len(found.open), stopped + bool(found.pending)
    is_whole = run.cuts == "all" and run.first is None and run.last is None
    complete = "" if torn or lost or left or stopped else " complete" if is_whole else " of these cuts"
    told = f" open {left} stopped {stopped}" if of_records else ""
    totals = f"cuts {len(cuts)} cases {total} failing {failing} torn beyond {torn} lost beyond {lost}{told}{complete}\n"
    text = head(run, checkers, losses) + lines + totals
    if run.first is None and run.last is None and not of_records:
        return "crash cases 1\n" + text
    return OfInputs(f"crash cases 1\ninputs ?\n{text}") if inputs is None else f"crash cases 1\ninputs {inputs}\n{text}"


def first_case(run, checkers, losses=ANY, inputs=None):
    """What `explore --bound any --first` prints: the text up to its first line of a case, without the number of the inputs, and which case
    that is; where no case fails, the whole text. No case after it is looked at."""
    for cut in (Cut(run, number) for number in judged_cuts(run, losses)):
        for program, checker in enumerate(checkers):
            for number, (case, ending, good) in enumerate(cut.walk(checker, losses)):
                if not good:
                    line = case_line(case, program, number, ending)
                    last = f"first cut {cut.number} program {program} case {number}\n"
                    return "crash cases 1\n" + head(run, checkers, losses) + line + last
    return cases(run, checkers, losses, inputs)


def status(text):
    """The exit status beside a text of cases. Of records a text that isn't complete is no clean one."""
    if " failing 0 torn" not in text:
        return 1
    return 3 if " open " in text and not text.endswith((" complete\n", " of these cuts\n")) else 0


# The cuts of a run, before it is made


def weight(run, cut):
    """How much work a cut is taken for: its parts at risk, and one more."""
    return len(at_risk(run, cut)) + 1


def cut_ranges(run, losses, parts):
    """The first and the last cut of each of that many parts of a run, or of as many as there are cuts. Each has as many of the cuts that
    are left as weigh its share of them, but at least one, and leaves one for each part after it."""
    left = judged_cuts(run, losses)
    first, last = run.first or 0, len(run.entries) if run.last is None else run.last
    ranges = []
    for others in range(max(min(parts, len(left)), 1) - 1, 0, -1):
        sums = list(itertools.accumulate(weight(run, cut) for cut in left))
        least = sum(1 for it in sums if it * (others + 1) < sums[-1]) + 1
        count = max(1, min(least, len(left) - others))
        ranges.append((first, left[count - 1]))
        first, left = left[count - 1] + 1, left[count:]
    return [*ranges, (first, last)]


def survey_cuts(run, losses=ANY, parts=None):
    """What `images --bound any` prints, with --parts how the run is laid out."""
    text = "crash cuts 1\n"
    for cut in judged_cuts(run, losses):
        risky = at_risk(run, cut)
        flying = sum(is_in_flight(run, cut, part.entry) for part in risky)
        text += f"cut {cut} epoch {run.epoch(cut)} marks {run.marks(cut)} at risk {len(risky)} in flight {flying}\n"
    if parts is None:
        return text + "how many cases there are is not known before the run\n"
    return text + "".join(f"part --from {first} --to {last}\n" for first, last in cut_ranges(run, losses, parts))


def ranged(run, first, last):
    """A run of some cuts of another alone."""
    return Run(run.recorded, run.sectors, run.cuts, run.bound, run.tears, run.by, run.flush, first, last, run.base)


# One image of any number of losses


def image_said(run, cut, said):
    """The image of the choice at a cut that is printed so, of any number of the parts at risk there; None where no choice is, or the cut
    isn't a wanted one."""
    if cut not in run.wanted_cuts():
        return None
    names = {part.name: part for part in at_risk(run, cut)}
    fates = TORN if run.tears else LOST
    words = [] if said == "-" else [it.partition(":") for it in said.split(",")]
    if any(name not in names or fate not in fates[1:] for name, _colon, fate in words):
        return None
    image = View(None, cut, tuple((part, dict((name, fate) for name, _colon, fate in words)[part.name]) for part in names.values() if part.name in [it[0] for it in words]), run)
    return image if image.choice() == said else None


def is_in_flight(run, cut, entry):
    """Whether an entry is the last before a cut, and forced to the device with its data."""
    return entry == cut - 1 and bool(run.entries[entry].flags & FUA)


def any_shown(run, image):
    """What `show --bound any` prints of an image."""
    cut, found = image.cut, list(shown_lines(run, image))
    departures = len(image.departures)
    found[0] = found[0].replace(f" bound {run.bound} ", " bound any ")
    for number, (part, fate) in enumerate(image.departures, 2):
        found[number] = departed(part, fate, ", in flight" * is_in_flight(run, cut, part.entry))
    volatile = min(32, len(run.volatile(cut)))
    last = run.entries[cut - 1] if cut and is_in_flight(run, cut, cut - 1) else None
    found.insert(3 + departures + volatile, f"in flight: {place_of(cut - 1, last.sector, last.count) if last and last.count else 'none'}")
    return "".join(f"{it}\n" for it in found)


# What a reader of the text is told of choices


def read_line(line):
    """The words of a line of a case, by the word before them, and what it ended in."""
    ending = line[line.index(" case ") + 6 :].split(" ", 1)[1].split(" choice ")[0]
    words = line.replace(f" {ending} ", " ").split()
    return dict(zip(words[::2], words[1::2])), ending


def read_case(line, names, fates):
    """The fates that a line of a case leaves each part at risk."""
    told, _ending = read_line(line)
    found = {name: list(fates) for name in names}
    for it in told["choice"].split(",") if told["choice"] != "-" else []:
        name, fate = it.split(":")
        found[name] = [fate]
    for name in told["kept"].split(",") if told["kept"] != "-" else []:
        found[name] = ["whole"]
    for it in told["among"].split(",") if "among" in told else []:
        name, some = it.split(":")
        assert found[name] in ([some.split("+")[0]], list(fates))
        found[name] = some.split("+")
    assert sum(some == fates for some in found.values()) == int(told["free"])
    return found


# Trials: all choices of small cuts, one by one

# At most as many choices are made of a cut.
MOST = 3_000


def some_entry(chance, sectors, values):
    """An entry of a device of that many sectors, mostly a write of which each piece has one of a few values."""

    def sector():
        mostly, rarely = chance.choice(values), chance.choice(values)
        return b"".join(bytes([chance.choice([mostly, mostly, mostly, rarely])]) * PIECE for _ in range(PIECES))

    return random_entry(chance, sectors, (0.10, 0.18, 0.25), [1, 1, 1, 2, 3], ((0.2, FUA), (0.1, FLUSH)), sector)


def some_checker(chance, sectors):
    """A checker that goes on or ends by what it finds."""
    steps = [
        (chance.randrange(sectors), chance.randrange(SECTOR), chance.random() < 0.3, chance.randint(2, 5), chance.randint(0, 2))
        for _ in range(chance.randint(1, 4))
    ]
    begins_with_marks = chance.random() < 0.3

    def judge(view):
        found = view.marks() if begins_with_marks else 0
        for at, place, by_found, modulus, stop in steps:
            found = (found * 3 + view.sector(found % sectors if by_found else at)[place]) % 1_000_003
            if found % modulus == stop:
                return found % 3, ()
        return found % 4, (found,)

    return Checker("slots 1 budget 1", judge)


def choices(cut):
    """All choices of a cut."""
    for fates in itertools.product(cut.fates, repeat=len(cut.parts)):
        yield dict(zip(cut.parts, fates))


def image_of(run, number, choice):
    return View(None, number, tuple((part, fate) for part, fate in choice.items() if fate != "whole"), run)


def state(image):
    return image.content(), image.epoch(), image.marks()


def may_be_lost(case, entry):
    """Whether all of an entry may be lost in a case, and it is no mark."""
    parts = [part for part in case.cut.run.parts if part.entry == entry]
    return not case.cut.run.entries[entry].flags & MARK and all(part in case.cut.parts and "drop" in case.fates(part) for part in parts)


def leaves(case, place):
    """Whether a flush before an entry leaves an image of a case, at its cut or at an earlier one: where nothing arrived of what was
    written after that."""
    run, number = case.cut.run, case.cut.number
    flushed = Run(run.recorded, run.sectors, by=run.by, tears=run.tears, flush=(*run.flush, place), base=run.base)
    while True:
        choice = {part: "drop" if part.entry >= number else case.fates(part)[0] for part in case.cut.parts}
        only = {part: fate for part, fate in choice.items() if part.entry < number}
        left = {part.name for part in at_risk(flushed, number)}
        if all(part.name in left for part, fate in only.items() if fate != "whole"):
            here, there = image_of(run, case.cut.number, choice), image_of(flushed, number, only)
            assert case.holds(choice) and (here.content(), here.marks()) == (there.content(), there.marks())
            return True
        number -= 1
        if number < 0 or not may_be_lost(case, number):
            return False


def is_left_before(case):
    """Whether a case without a window holds an image of the cut right after its first entry of which a part can't be whole, in which
    parts of that entry alone aren't; and where these may be lost, one of the cut before that entry, in which nothing is."""
    run, first = case.cut.run, first_gone(case)
    if first is None:
        return True

    def fate(part):
        fates = case.fates(part)
        return "drop" if part.entry > first or part.entry == first and "whole" not in fates and "drop" in fates else fates[0]

    choice = {part: fate(part) for part in case.cut.parts}
    only = {part: it for part, it in choice.items() if part.entry == first}
    here, after = image_of(run, case.cut.number, choice), image_of(run, first + 1, only)
    same = case.holds(choice) and (here.content(), here.marks()) == (after.content(), after.marks())
    if all("drop" in case.fates(part) for part in only):
        dropped = image_of(run, case.cut.number, {**choice, **dict.fromkeys(only, "drop")})
        before = image_of(run, first, {})
        same = same and (dropped.content(), dropped.marks()) == (before.content(), before.marks())
    return same


def windows_hold(found):
    """What isn't as the rules say of the windows of cases."""
    for case, _ending, _good in found.leaves:
        window = window_of(case)
        for place in range(len(case.cut.run.entries)):
            if leaves(case, place) == bool(window and window[0] <= place <= window[1]):
                yield f"a flush before {place}, of a case with the window {window}"
        if not window and not is_left_before(case):
            yield "a case without a window has no image that is left"


def cut_holds(cut, checker, losses, lines):
    """What isn't as the rules say at a cut, of which these are the lines of the text."""
    found = cut.explore(checker, losses)
    yield from windows_hold(found)
    names = [part.name for part in cut.parts]
    told = [(read_case(line, names, cut.fates), read_line(line)[1]) for line in lines]
    held = set()
    for choice in choices(cut):
        own = [(ending, good) for case, ending, good in found.leaves if case.holds(choice)]
        ending, good = ended(checker.judge(image_of(cut.run, cut.number, choice)))
        torn = sum(fate not in LOST for fate in choice.values())
        lost = sum(fate != "whole" for fate in choice.values())
        asked = torn <= losses.most_torn(cut.run) and (losses.most is None or lost <= losses.most)
        held |= {case for case, _ending, _good in found.leaves if asked and case.holds(choice)}
        if len(own) > 1 or asked and not own:
            yield f"a choice is in {len(own)} cases"
        if any(it != (ending, good) for it in own):
            yield "a choice ends otherwise than its case says"
        said = [words for fates, words in told if all(fate in fates[part.name] for part, fate in choice.items())]
        if said != ([ending] if own and not good else []):
            yield "the text doesn't tell what a choice ends in"
    if len(held) != len(found.leaves):
        yield "a case has no choice that is asked for"


def run_holds(number, seed):
    """What isn't as the rules say of the run with that number, or None where it has too many choices."""
    chance = random.Random(f"{seed} {number}")
    sectors, values = chance.choice([2, 3, 4]), chance.sample(range(256), chance.choice([2, 3]))
    entries = [some_entry(chance, sectors, values) for _ in range(chance.randint(2, 7))]
    base = chance.choice([b"", bytes([values[0]]) * SECTOR])
    run = Run(entries, sectors, by=chance.choice(["sector", "write"]), tears=chance.random() < 0.4, base=base)
    losses = Losses(chance.choice([None, 1, 2, 3]) if run.tears else None, chance.choice([None, None, 1, 2]))
    cuts = [Cut(run, it) for it in range(len(entries) + 1)]
    if any(len(it.fates) ** len(it.parts) > MOST for it in cuts):
        return None
    checker = some_checker(chance, sectors)
    judged, lines = judged_cuts(run, losses), {it.number: [] for it in cuts}
    for line in cases(run, [checker], losses).splitlines()[3:-1]:
        lines[int(line.split()[1])].append(line)
    said = [f"cut {it.number}: {what}" for it in cuts if it.number in judged for what in cut_holds(it, checker, losses, lines[it.number])]
    images = {it.number: {state(image_of(run, it.number, choice)) for choice in choices(it)} for it in cuts}
    last = set().union(*(own for cut, own in images.items() if is_last_cut(run, cut)))
    return said + [f"cut {cut}: an image is none of a last cut" for cut, own in images.items() if not own <= last]


def layout_holds(number, seed):
    """What isn't as the rules say of the parts of the run with that number: each cut where cases are looked for is one of exactly one part,
    which has some, and ends at one."""
    chance = random.Random(f"{seed} layout {number}")
    entries = [some_entry(chance, 3, [0, 1]) for _ in range(chance.randint(0, 14))]
    first, last = sorted(chance.randint(0, len(entries)) for _ in range(2))
    given = (chance.choice([None, first]), chance.choice([None, last]))
    run = Run(entries, 3, chance.choice(["all", "all", "flush", "mark"]), by=chance.choice(["sector", "write"]), first=given[0], last=given[1])
    losses = Losses(None, chance.choice([None, None, 1]))
    cuts, said = judged_cuts(run, losses), []
    for parts in range(1, len(cuts) + 3):
        ranges = cut_ranges(run, losses, parts)
        own = [judged_cuts(ranged(run, *it), losses) for it in ranges]
        if sum(own, []) != cuts:
            said.append(f"{parts} parts have the cuts {own}, and not {cuts}")
        if len(ranges) != max(1, min(parts, len(cuts))) or not all(own) and cuts:
            said.append(f"{parts} parts are {own}")
        follow = all(one[1] + 1 == other[0] for one, other in zip(ranges, ranges[1:]))
        if not follow or ranges[0][0] != (given[0] or 0) or ranges[-1][1] != (len(entries) if given[1] is None else given[1]):
            said.append(f"{parts} parts have the ranges {ranges}")
        if any(last not in cuts for _first, last in ranges[:-1]):
            said.append(f"{parts} parts end where no cases are looked for: {ranges}")
        rest = [weight(run, cut) for cut in cuts]
        for it, others in zip(own[:-1], range(len(own) - 1, 0, -1)):
            beyond = sum(rest[: len(it) - 1]) * (others + 1) >= sum(rest) and len(it) > 1
            short = sum(rest[: len(it)]) * (others + 1) < sum(rest) and len(rest) - len(it) > others
            if beyond or short:
                said.append(f"a part of {parts} has {len(it)} cuts of {rest}")
            rest = rest[len(it) :]
    return said


def main():
    parser = argparse.ArgumentParser(description="Tries the rules of cases on all choices of small cuts, and of parts on small logs.")
    parser.add_argument("--runs", type=int, default=400)
    parser.add_argument("--seed", type=int, default=1)
    given = parser.parse_args()
    passed = failed = number = 0
    while passed + failed < given.runs:
        what = run_holds(number, given.seed)
        for line in what or []:
            print(f"run {number}: {line}")
        passed, failed = passed + (what == []), failed + bool(what)
        number += 1
    for number in range(given.runs):
        what = layout_holds(number, given.seed)
        for line in what:
            print(f"layout {number}: {line}")
        passed, failed = passed + (what == []), failed + bool(what)
    print(f"{passed} passed, {failed} failed")
    return 1 if failed else 0


if __name__ == "__main__":
    sys.exit(main())
