#!/usr/bin/env python3
"""The power goes again, while a program is at work on a crash image: second logs, second cases and their text, in the plainest form.

Written from docs/CRASH-MODEL.md, 'A crash while recovery is at work', and docs/OUTPUT.md, 'Records of a program of yours', and from nothing
of what is tested. A program is a function of a device, which it reads, writes and syncs, and of the number of marks; it returns its status.

By itself it tries that these rules are sound as they stand there:

    python3 tests/models/again_model.py [--runs N] [--seed S]

N is 300 where it isn't given, S is 1. A run has a small log and a program that reads, writes and syncs by what it finds. Each choice of each
cut is made, and where the program accepts its image, each choice of each second cut of what it did to just that image. That is in exactly one
second case, or if it has more losses than are asked for in at most one, and the program ends on its image as that case says. By the text
alone it is told which choices fail. A sync of the program in a sync window takes the case away. It is no part of the gate.
"""
import argparse
import random
import sys
from dataclasses import dataclass, field, replace

sys.dont_write_bytecode = True

import rooms

rooms.enter()

import known_model
from cases_model import ANY, LOST, Case, Cut, Losses, View, cases, choices, judged_cuts, some_entry
from known_model import Ended
from model import Checker, Part
from notation import SECTOR
from parts_model import WideRun

PAGE = 8
OF_SECOND = "+"
MOST_ENTRIES, MOST_BYTES = 4096, 64 << 20
# At most as many choices are made of both cuts together.
MOST = 600


@dataclass
class Entry:
    """An entry of a second log: what it holds by sector, nothing for a flush, and whether it is FUA."""

    held: dict = field(default_factory=dict)
    forced: bool = False


class Device:
    """An image as a program has it. `log` has what the program did to it."""

    def __init__(self, view):
        self.view, self.own, self.log, self.since = view, {}, [], {}

    def sector(self, number):
        return self.own[number] if number in self.own else self.view.sector(number)

    def read(self, at, size):
        first, end = at // SECTOR, -(-(at + size) // SECTOR)
        return b"".join(map(self.sector, range(first, end)))[at - SECTOR * first :][:size]

    def write(self, at, data, forced=False, direct=False):
        """Writes bytes, which are cut where a page ends."""
        while data:
            piece, data = data[: PAGE * SECTOR - at % (PAGE * SECTOR)], data[PAGE * SECTOR - at % (PAGE * SECTOR) :]
            self.write_piece(at, piece, forced, direct)
            at += len(piece)

    def write_piece(self, at, piece, forced, direct):
        """Writes bytes of one page, and adds the entry of that."""
        first, last = at // SECTOR, (at + len(piece) - 1) // SECTOR
        for number in range(first, last + 1):
            begin, end = max(at - SECTOR * number, 0), min(at + len(piece) - SECTOR * number, SECTOR)
            old = self.sector(number) if end - begin < SECTOR else bytes(SECTOR)
            self.own[number] = old[:begin] + piece[SECTOR * number + begin - at : SECTOR * number + end - at] + old[end:]
        written = set(range(first, last + 1))
        since = self.since.setdefault(first // PAGE, set())
        since |= written
        self.log.append(Entry({it: self.own[it] for it in sorted(written if direct else since)}, forced))
        if forced:
            self.since.pop(first // PAGE)

    def sync(self):
        if self.log and self.log[-1].held:
            self.log.append(Entry())
            self.since = {}


@dataclass(frozen=True)
class PagePart(Part):
    """A part of a second log by write, which holds some sectors of a page."""

    held: frozenset = frozenset()

    def covers(self, number):
        return number in self.held


def parts_of(number, name, entry, run):
    """The parts of an entry of a second log."""
    first = min(entry.held, default=0) // PAGE * PAGE
    if run.by == "write":
        content = b"".join(entry.held.get(it, bytes(SECTOR)) for it in range(first, min(first + PAGE, run.sectors)))
        return [PagePart(name, number, first, content, frozenset(entry.held))] if entry.held else []
    return [Part(f"{name}.{it - first}", number, it, content) for it, content in entry.held.items()]


class SecondRun:
    """A log up to a cut, and then a second log: entry e of that has the number of the cut and e."""

    def __init__(self, run, cut, entries):
        self.run, self.cut, self.entries, self.tears, self.by, self.sectors = run, cut, entries, run.tears, run.by, run.sectors
        self.parts = [it for it in run.parts if it.entry < cut]
        for number, entry in enumerate(entries):
            # (an image knows fates by the names of parts, so those of the second log have a mark)
            self.parts += parts_of(cut + number, f"{OF_SECOND}{number}", entry, run)

    def marks(self, _cut):
        return self.run.marks(self.cut)

    def initial_sector(self, number):
        return self.run.initial_sector(number)

    def parts_over(self, number):
        return [it for it in self.parts if it.covers(number)]

    def at_risk(self, second):
        """The parts of both logs at risk at a second cut."""
        found = list(Cut(self.run, self.cut).parts)
        for part in self.parts:
            entry = part.entry - self.cut
            if 0 <= entry < second and all(it.held for it in self.entries[entry:second]):
                if entry == second - 1 or not self.entries[entry].forced:
                    found.append(part)
        return found

    def cuts(self, losses):
        """The second cuts that are explored."""
        last, found = len(self.entries), []
        for it in range(last + 1):
            if losses.most is not None or it == last or not self.entries[it].held or it and self.entries[it - 1].forced:
                found.append(it)
        return found


class SecondCut(Cut):
    """A second cut, of whose parts a case of the first one leaves some fates."""

    def __init__(self, run, second, known):
        super().__init__(run.run, run.cut)
        self.run, self.number, self.second, self.known = run, run.cut + second, second, known
        self.parts = run.at_risk(second)

    def walk(self, checker, losses, found=None):
        yield from self.walk_case(Case(self, dict(self.known)), checker, losses, found)


# What a program does


def judge_of(program):
    """A program as the judge of images."""

    def judge(view):
        return Ended(f"answer {program(Device(view), view.marks())}")

    return Checker("", judge, of_records=True)


def log_of(program, view):
    """What a program does to an image."""
    device = Device(view)
    program(device, view.marks())
    return device.log


# The text


@dataclass
class First:
    """A first case: its cut, its number there, and its second cuts, each with what was found."""

    number: int
    case: object
    log: list
    seconds: list


def is_unexplored(log):
    return len(log) > MOST_ENTRIES or sum(SECTOR * len(it.held) for it in log) > MOST_BYTES


def firsts_of(run, program, losses):
    """Yields the first cases, with all that their second cuts have."""
    for cut in (Cut(run, it) for it in judged_cuts(run, losses)):
        for number, (case, _ending, good) in enumerate(cut.explore(judge_of(program), losses).leaves):
            if good:
                log, seconds = log_of(program, case.representative()), []
                if log and not is_unexplored(log):
                    second = SecondRun(run, cut.number, log)
                    seconds = [SecondCut(second, it, case.known) for it in second.cuts(losses)]
                yield First(number, case, log, [(it, it.explore(judge_of(program), losses)) for it in seconds])


def ranges(sectors):
    return known_model.ranges(sorted(sectors))


def entry_lines(log):
    """The lines of the entries of a second log."""
    epoch = 0
    for number, it in enumerate(log):
        yield f"entry {number} epoch {epoch} " + (f"write{' fua' * it.forced} sectors {ranges(it.held)}" if it.held else "flush")
        epoch += not it.held


def told(part):
    return part.name.removeprefix(OF_SECOND)


def halves(parts, cut):
    return [it for it in parts if it.entry < cut], [it for it in parts if it.entry >= cut]


def choice_of(view, cut):
    """Both choices of an image."""
    return [",".join(f"{told(part)}:{fate}" for part, fate in view.departures if (part.entry < cut) == is_first) or "-" for is_first in (True, False)]


def sync_window(case):
    """The first and the last entry of the second log before which a sync takes all images of a case away; None where there is none."""
    cut = case.cut
    gone = [part.entry for part, fates in case.known.items() if "whole" not in fates and part.entry >= cut.run.cut]
    if not gone:
        return None

    def stays(part):
        return part not in cut.parts or "drop" not in case.fates(part)

    ends = [part.entry for part in cut.run.parts if min(gone) < part.entry < cut.number and stays(part)]
    return (min(gone) + 1 - cut.run.cut, max(ends) - cut.run.cut) if ends else None


def second_line(case, number, ending):
    """A line of a second case on which the program fails."""
    cut = case.cut
    own, after = choice_of(case.representative(), cut.run.cut)
    whole, among, free = [], [], []
    for parts in halves(cut.parts, cut.run.cut):
        whole.append(",".join(told(it) for it in parts if case.fates(it) == ["whole"]) or "-")
        among.append(",".join(f"{told(it)}:{'+'.join(case.fates(it))}" for it in parts if 1 < len(case.fates(it)) < len(cut.fates)) or "-")
        free.append(sum(len(case.fates(it)) == len(cut.fates) for it in parts))
    window = sync_window(case)
    text = f"cut {cut.run.cut} choice {own} then cut {cut.second} choice {after} marks {cut.run.marks(0)} case {number} {ending}"
    text += f" kept {whole[0]} then {whole[1]}" + (f" among {among[0]} then {among[1]}" if among != ["-", "-"] else "")
    return f"{text} free {free[0]} then {free[1]} sync {'none' if window is None else '{}..{}'.format(*window)}\n"


def again(run, program, about, losses=ANY, inputs=None):
    """The text of `--again`. `about` has the lines of a head after the options."""
    checker = replace(judge_of(program), about=about)
    own = str(cases(run, [checker], losses, known_model.inputs_of(run) if inputs is None else inputs)).replace("crash cases 1", "crash again 1", 1)
    firsts, text = list(firsts_of(run, program, losses)), ""
    counts = dict.fromkeys(("cuts", "cases", "failing", "torn beyond", "lost beyond", "open", "stopped"), 0)
    for it in firsts:
        lines, count = "", 0
        for cut, found in it.seconds:
            failing = [second_line(case, number, ending) for number, (case, ending, good) in enumerate(found.leaves) if not good]
            lines, count = lines + "".join(failing), count + len(found.leaves)
            own_counts = (1, len(found.leaves), len(failing), found.torn_beyond, found.lost_beyond, len(found.open), bool(found.pending))
            counts = {name: before + more for (name, before), more in zip(counts.items(), own_counts)}
        if lines:
            cut = it.case.cut
            place = f"first cut {cut.number} case {it.number} choice {it.case.representative().choice()} marks {run.marks(cut.number)}"
            text += f"{place} entries {len(it.log)} cuts {len(it.seconds)} cases {count} failing {lines.count(chr(10))}\n"
            text += "".join(f"{line}\n" for line in entry_lines(it.log)) + lines
    unexplored = sum(is_unexplored(it.log) for it in firsts)
    last = f"firsts {len(firsts)} written {sum(bool(it.log) for it in firsts)} unexplored {unexplored}"
    last += "".join(f" {name} {it}" for name, it in counts.items())
    extent = next((it for it in (" complete", " of these cuts") if own.endswith(f"{it}\n")), "")
    is_whole = not unexplored and not any(counts[it] for it in ("torn beyond", "lost beyond", "open", "stopped"))
    return f"{own}{text}{last}{extent if is_whole else ''}\n"


def status(text):
    """The exit status beside a text of `--again`."""
    if any(" failing " in it and " failing 0 " not in it and " torn beyond " in it for it in text.splitlines()):
        return 1
    return 0 if text.endswith((" complete\n", " of these cuts\n")) else 3


# Trials: all choices of small cuts, one by one


def program_of(steps, sectors, forced, direct, modulus):
    """Returns a program that makes steps: it reads, writes and syncs, and goes on or ends by what it finds."""

    def program(device, marks):
        found = marks
        for kind, at, size, often in steps:
            if kind == "read":
                found = (found * 3 + sum(device.read(at, min(size, 512 * sectors - at))[:70])) % 1_000_003
            elif kind == "sync":
                device.sync()
            elif found % often:
                at = at // 512 * 512 if size % 512 == 0 else at
                size = min(size, 512 * sectors - at)
                device.write(at, bytes([found % 3]) * size, forced, direct and size % 512 == 0)
        return int(found % modulus == 0)

    return program


def some_steps(chance, sectors):
    """Returns what a program is made of."""
    steps = []
    for _ in range(chance.randint(3, 7)):
        size = chance.choice([1, 64, 512, 512, 700, 1024])
        steps.append((chance.choice(["read", "read", "write", "write", "sync"]), chance.randrange(SECTOR * sectors), size, chance.randint(2, 4)))
    return steps, sectors, chance.random() < 0.2, chance.random() < 0.2, chance.randint(3, 9)


def some_program(chance, sectors):
    return program_of(*some_steps(chance, sectors))


def some_run(chance):
    sectors = chance.choice([2, 3, 9, 12])
    entries = [some_entry(chance, sectors, [0, 1, 2]) for _ in range(chance.randint(1, 5))]
    return WideRun(entries, sectors, tears=chance.random() < 0.15, by=chance.choice(["sector", "write"]), flush=(1,) if chance.random() < 0.1 and len(entries) > 1 else ())


def choices_of(cut):
    """All choices of a cut, or none where they are too many."""
    return list(choices(cut)) if len(cut.fates) ** len(cut.parts) <= MOST else []


def view_of(cut, choice):
    return View(None, cut.number, tuple((part, fate) for part, fate in choice.items() if fate != "whole"), cut.run)


def brute(run, program, losses):
    """Yields each first choice that the program accepts with each second choice of what it does to just that image, and what it ends in."""
    for cut in (Cut(run, it) for it in judged_cuts(run, losses)):
        for first in choices_of(cut):
            view = view_of(cut, first)
            if program(Device(view), view.marks()):
                continue
            log = log_of(program, view)
            second = SecondRun(run, cut.number, log)
            for number in second.cuts(losses) if log else ():
                whole = SecondCut(second, number, {})
                own = [it for it in whole.parts if it.entry >= cut.number]
                if len(whole.fates) ** len(own) <= MOST // 20:
                    for fates in choices(replace_parts(whole, own)):
                        image = view_of(whole, {**first, **fates})
                        yield cut.number, number, first, fates, program(Device(image), image.marks())


def replace_parts(cut, parts):
    found = SecondCut(cut.run, cut.second, {})
    found.parts = parts
    return found


def differs(run, program, losses):
    """What second cases say otherwise than a run of the program on each image."""
    firsts = list(firsts_of(run, program, losses))
    leaves = [(it.case.cut.number, cut.second, case, ending) for it in firsts for cut, found in it.seconds for case, ending, _good in found.leaves]
    count = 0
    for number, second, first, fates, ending in brute(run, program, losses):
        count += 1
        own = {part.name: fate for part, fate in {**first, **fates}.items()}
        here = [(case, told) for at, then, case, told in leaves if (at, then) == (number, second)]
        those = [told for case, told in here if all(own[part.name] in some for part, some in case.known.items())]
        gone = [it for it in own.values() if it != "whole"]
        torn = [it for it in gone if it not in LOST]
        is_asked = len(torn) <= losses.most_torn(run) and (losses.most is None or len(gone) <= losses.most)
        if those != [f"answer {ending} codes -"] and (is_asked or those):
            return f"cut {number} then cut {second}: {own} ends in {ending}, and the cases say {those}", count
    return None, count


def main():
    parser = argparse.ArgumentParser(description="Tries second cases by all choices of small logs.")
    parser.add_argument("--runs", type=int, default=300)
    parser.add_argument("--seed", type=int, default=1)
    given = parser.parse_args()
    failed = total = 0
    for number in range(given.runs):
        chance = random.Random(f"{given.seed} {number}")
        run = some_run(chance)
        losses = Losses(torn=chance.choice([None, 2]) if run.tears else None, most=chance.choice([None, None, None, 1, 2]))
        said, count = differs(run, some_program(chance, run.sectors), losses)
        total += count
        if said:
            failed += 1
            print(f"run {number}: {said}", flush=True)
    print(f"{total} choices\n{given.runs - failed} passed, {failed} failed")
    return 1 if failed else 0


if __name__ == "__main__":
    sys.exit(main())
