#!/usr/bin/env python3
"""Runs of any number of losses in parts, and their join, in the plainest form.

Written from docs/OUTPUT.md, 'The text of cases', and docs/COMMANDS.md, 'Joining parts', and from nothing of the program under test. A part
is the run of a range of cuts. Its text is read as a whole: each line has to be one that a run with that head may print.

By itself it tries that the parts of a run come to the text of the run, and that other texts are refused:

    python3 tests/models/case_parts_model.py [--runs N] [--seed S]

N is 300 where it isn't given, S is 1. A run has a log of up to nine entries, some of its cuts, and one or two checkers. No program is run.
It takes a few seconds, and is no part of the gate.
"""
import argparse
import random
import re
import sys
from dataclasses import dataclass
from itertools import takewhile

sys.dont_write_bytecode = True

import rooms

rooms.enter()

from cases_model import LOST, TORN, Losses, cases, cut_ranges, judged_cuts, ranged, some_checker, some_entry
from model import Run
from notation import SECTOR
from parts_model import NUMBER, NUMBERS, below, is_program, joined

FIRST = "crash cases 1"
INPUTS = re.compile(f"inputs ({NUMBER})")
OPTIONS = re.compile(
    f"(?P<device>sectors (?P<sectors>{NUMBER}) entries (?P<entries>{NUMBER}) cuts (?P<cuts>all|flush|mark) bound any tears (?:no|yes torn (?P<torn>[123])))"
    f"(?: at-most (?P<most>{NUMBER}))?(?P<by> by write)?(?: flush (?P<flush>{NUMBERS}))?(?: from (?P<from>{NUMBER}))?(?: to (?P<to>{NUMBER}))?"
    f"(?: base (?P<base>{NUMBER}))?"
)
CASE = re.compile(
    f"cut (?P<cut>{NUMBER}) epoch (?P<epoch>{NUMBER}) marks (?P<marks>{NUMBER}) program (?P<program>{NUMBER}) case (?P<case>{NUMBER}) "
    f"(?:answer (?P<answer>{NUMBER}) codes (?P<codes>-|{NUMBERS})|fault 8[0-8] slot (?P<slot>{NUMBER})|stray at slot (?P<stray>{NUMBER})|out of steps)"
    f" choice (?P<choice>[^ ]+) kept (?P<kept>[^ ]+)(?: among (?P<among>[^ ]+))? free (?P<free>{NUMBER}) flush (?:(?P<first>{NUMBER})[.][.](?P<last>{NUMBER})|none)"
)
TOTALS = re.compile(f"cuts ({NUMBER}) cases ({NUMBER}) failing ({NUMBER}) torn beyond ({NUMBER}) lost beyond ({NUMBER})( complete| of these cuts)?")
MOST_CASES = 1 << 24
MOST_FILES, MOST_BYTES = 4096, 1 << 30


@dataclass(frozen=True)
class Read:
    """A part as its text has it: the number of its inputs, its options without the range, the range as it is given, the programs, and what
    was found."""

    inputs: object
    options: str
    given: tuple
    entries: int
    programs: tuple
    lines: tuple
    totals: tuple

    def run(self):
        return self.inputs, self.options, self.programs

    def span(self):
        """The first and the last of its cuts."""
        return int(self.given[0] or 0), self.entries if self.given[1] is None else int(self.given[1])


def name_of(word, by_write):
    """The entry and the place of a part's name."""
    found = re.fullmatch(f"({NUMBER})" if by_write else f"({NUMBER})[.]({NUMBER})", word)
    return tuple(map(int, found.groups())) if found and below(32, *found.groups()) else None


def listed(text, read):
    """What stands in a list with commas, where all of it can be read and rises by its part."""
    items = [] if text in ("-", None) else [read(it) for it in text.split(",")]
    rising = None not in items and all(one[0] < other[0] for one, other in zip(items, items[1:]))
    return dict(items) if rising else None


def known(found, options):
    """What a line says of the parts at risk: the lost and torn ones, the kept ones, and those with more than one fate."""
    by_write, fates = options["by"] is not None, LOST if options["torn"] is None else TORN

    def departed(word):
        name, _colon, fate = word.partition(":")
        return (name_of(name, by_write), fate) if name_of(name, by_write) and fate in fates[1:] else None

    def mixed(word):
        name, _colon, some = word.partition(":")
        places = [fates.index(it) if it in fates else -1 for it in some.split("+")]
        rising = -1 not in places and all(one < other for one, other in zip(places, places[1:]))
        return (name_of(name, by_write), some.split("+")) if name_of(name, by_write) and rising and 1 < len(places) < len(fates) else None

    def kept(word):
        return (name_of(word, by_write), None) if name_of(word, by_write) else None

    lists = listed(found["choice"], departed), listed(found["kept"], kept), listed(found["among"], mixed)
    return None if None in lists or found["among"] == "-" else lists


def is_case(found, options, programs, span):
    """Whether a line of a case is one that a run with that head may print."""
    cut, numbers = int(found["cut"]), [found[it] for it in ("epoch", "marks", "case", "answer", "slot", "stray", "free")]
    codes = found["codes"].split(",") if found["codes"] not in (None, "-") else []
    told = known(found, options)
    if not told or not below(64, *numbers, *codes) or len(codes) > 16 or found["answer"] == "0":
        return False
    choice, kept, among = told
    firsts = all(choice.get(name, "whole") == some[0] for name, some in among.items())
    before = all(name[0] < cut for it in told for name in it) and int(found["epoch"]) <= cut and int(found["marks"]) <= cut
    apart = not set(kept) & {*choice, *among}
    window = found["first"] is None or int(found["first"]) <= int(found["last"]) < cut
    few = int(found["case"]) < MOST_CASES
    return firsts and before and apart and window and few and span[0] <= cut <= span[1] and int(found["program"]) < programs


def read_options(line):
    """The line of the options, where a run may have it."""
    found = OPTIONS.fullmatch(line)
    if not found:
        return None
    sectors, entries = int(found["sectors"]), int(found["entries"])
    flushes = list(map(int, found["flush"].split(","))) if found["flush"] else []
    first, last = int(found["from"] or 0), int(found["to"] or entries)
    right = 1 <= sectors <= 1 << 25 and entries <= 1 << 16 and below(64, found["base"]) and (found["most"] is None or 1 <= int(found["most"]) <= 64)
    return found if right and first <= last <= entries and len(flushes) <= 64 and all(it < entries for it in flushes) else None


def extent_of(cuts, given, torn, lost):
    """What the last line says where no case was left out: whether each cut of the log was asked for, by the kind of the cuts and their range."""
    if torn or lost:
        return ""
    return " complete" if cuts == "all" and given == (None, None) else " of these cuts"


def read_totals(line, lines, options, span):
    """The numbers of the last line, where they are such as these lines may have."""
    found = TOTALS.fullmatch(line)
    if not found:
        return None
    cuts, total, failing, torn, lost = map(int, found.groups()[:5])
    right = failing == len(lines) <= total <= MOST_CASES and cuts <= span[1] - span[0] + 1 and below(64, torn, lost)
    enough = cuts >= len({int(it["cut"]) for it in lines}) and (found[6] or "") == extent_of(options["cuts"], (options["from"], options["to"]), torn, lost)
    return (cuts, total, failing, torn, lost) if right and enough else None


def read_cases(text):
    """The part of a text, None where it isn't the text of one."""
    try:
        lines = text.decode("ascii").split("\n")
    except UnicodeDecodeError:
        return None
    if len(lines) < 5 or lines[0] != FIRST or lines[-1] != "":
        return None
    said = INPUTS.fullmatch(lines[1])
    inputs = said and said[1]
    lines = lines[1:] if said else lines
    options = read_options(lines[1])
    programs = list(takewhile(lambda line: line.startswith("program "), lines[2:-2]))
    if not options or not 1 <= len(programs) <= 8 or not all(is_program(it, number) for number, it in enumerate(programs)):
        return None
    if (inputs is None) != (options["from"] is options["to"] is None) or not below(64, inputs):
        return None
    entries = int(options["entries"])
    span = int(options["from"] or 0), int(options["to"] or entries)
    found = [CASE.fullmatch(it) for it in lines[2 + len(programs) : -2]]
    if not all(found) or not all(is_case(it, options, len(programs), span) for it in found):
        return None
    marks = [tuple(int(it[word]) for word in ("cut", "program", "case")) for it in found]
    places = {(it["cut"], it["epoch"], it["marks"]) for it in found}
    rising = all(one < other for one, other in zip(marks, marks[1:])) and len(places) == len({cut for cut, _epoch, _marks in places})
    totals = read_totals(lines[-2], found, options, span)
    if not rising or not totals:
        return None
    without = re.sub(r" (?:from|to) [0-9]+", "", lines[1])
    return Read(inputs, without, (options["from"], options["to"]), entries, tuple(programs), tuple(it[0] for it in found), totals)


def text_of(inputs, options, given, programs, lines, totals):
    """The text of a run, its range as it is given, with the number of its inputs where there is one."""
    words = "".join(f" {word} {it}" for word, it in zip(("from", "to"), given) if it is not None)
    before, base, number = options.partition(" base ")
    cuts, total, failing, torn, lost = totals
    extent = extent_of(OPTIONS.fullmatch(options)["cuts"], given, torn, lost)
    last = f"cuts {cuts} cases {total} failing {failing} torn beyond {torn} lost beyond {lost}{extent}"
    return "".join(f"{it}\n" for it in (FIRST, *([] if inputs is None else [f"inputs {inputs}"]), before + words + base + number, *programs, *lines, last))


def joined_range(first, last):
    """The range of cuts that the text of a row tells, by its first and its last part: none where they have all cuts."""
    return (None, None) if (first.span()[0], last.span()[1]) == (0, last.entries) else (first.given[0], last.given[1])


def join_cases(texts, some=False):
    """The status, and the text of the run of which these are the parts, or with `some` of some of its cuts. Where they aren't joined 2,
    with the number of the refusal and its place."""
    if len(texts) > MOST_FILES:
        return 2, (65, MOST_FILES)
    size = 0
    for number, text in enumerate(texts):
        size += len(text)
        if size > MOST_BYTES:
            return 2, (65, number)
    reads = [read_cases(it) for it in texts]
    if None in reads:
        return 2, (61, reads.index(None))
    for number, read in enumerate(reads):
        if read.run() != reads[0].run():
            return 2, (62, number)
    row = sorted(range(len(reads)), key=lambda it: (reads[it].span()[0], it))
    for one, other in zip(row, row[1:]):
        end, start = reads[one].span()[1] + 1, reads[other].span()[0]
        if start != end:
            return 2, (63 if end < start else 64, other)
    parts = [reads[it] for it in row]
    totals = tuple(map(sum, zip(*(it.totals for it in parts))))
    if totals[1] > MOST_CASES:
        # With that file there are too many.
        counts = [sum(it.totals[1] for it in parts[: number + 1]) for number in range(len(parts))]
        return 2, (12, row[next(number for number, it in enumerate(counts) if it > MOST_CASES)])
    if not some and parts[0].span()[0] > 0:
        return 2, (63, row[0])
    if not some and parts[-1].span()[1] < parts[-1].entries:
        return 2, (63, len(texts))
    if not below(64, *totals):
        totals = tuple(min(it, 2**64 - 1) for it in totals)
    lines, given = [line for it in parts for line in it.lines], joined_range(parts[0], parts[-1])
    inputs = None if given == (None, None) else parts[0].inputs
    return 1 if lines else 0, text_of(inputs, parts[0].options, given, parts[0].programs, lines, totals).encode()


def join_texts(texts, some=False):
    """What `join` says of texts: of cases where the first one begins so, and else of images."""
    return join_cases(texts, some) if texts[0].startswith(f"{FIRST}\n".encode()) else joined(texts, some)


# Trials


def some_run(chance):
    """Returns a random run of any number of losses, with checkers of it."""
    sectors, values = chance.choice([2, 3]), chance.sample(range(256), 2)
    entries = [some_entry(chance, sectors, values) for _ in range(chance.randint(0, 9))]
    first, last = sorted(chance.randint(0, len(entries)) for _ in range(2))
    base = chance.choice([b"", bytes([values[0]]) * SECTOR])
    by, kind = chance.choice(["sector", "write"]), chance.choice(["all", "all", "flush", "mark"])
    flush = tuple(sorted(chance.sample(range(len(entries)), min(len(entries), chance.choice([0, 0, 1])))))
    given = chance.choice([None, first]), chance.choice([None, last])
    tears = sum(it.count for it in entries) < 6 and chance.random() < 0.4
    run = Run(entries, sectors, kind, tears=tears, by=by, flush=flush, first=given[0], last=given[1], base=base)
    checkers = [some_checker(chance, sectors) for _ in range(chance.randint(1, 2))]
    return run, checkers, Losses(chance.choice([None, 1, 2]) if tears else None, chance.choice([None, None, 1, 2]))


def changed(chance, text):
    """A text with one byte more, fewer or other."""
    place = chance.randrange(len(text))
    return text[:place] + chance.choice([b"", bytes([chance.choice(b"0123456789 .,:+-\nacdefhlnorstw")])]) + text[place + chance.randint(0, 1) :]


def holds(number, seed):
    """What isn't as the rules say of the run with that number."""
    chance = random.Random(f"{seed} {number}")
    run, checkers, losses = some_run(chance)
    cuts = judged_cuts(run, losses)
    said = []
    for count in range(1, min(len(cuts), 4) + 1):
        ranges = cut_ranges(run, losses, count)
        inputs = chance.randrange(2**64)
        texts = [cases(ranged(run, *it), checkers, losses, inputs).encode() for it in ranges]
        late, early = ranges[0][0] > 0, ranges[-1][1] < len(run.entries)
        whole = cases(ranged(run, ranges[0][0], ranges[-1][1]) if late or early else ranged(run, None, None), checkers, losses, inputs)
        answer = 0 if " failing 0 torn" in whole else 1, whole.encode()
        order = chance.sample(texts, len(texts))
        if join_cases(order, True) != answer:
            said.append(f"{count} parts come to {join_cases(order, True)}, and not to {whole}")
        short = 2, (63, order.index(texts[0]) if late else len(texts))
        if join_cases(order) != (short if late or early else answer):
            said.append(f"{count} parts come to {join_cases(order)} where all cuts are wanted")
        if len(texts) > 2 and join_cases([texts[0], texts[2]], True) != (2, (63, 1)):
            said.append("a part that is missing isn't seen")
        if len(texts) > 1 and join_cases([*texts, texts[0]], True) != (2, (64, len(texts))):
            said.append("a part that is there twice isn't seen")
        if len(texts) > 1 and join_cases([texts[0], cases(ranged(run, *ranges[1]), checkers, losses, inputs ^ 1).encode()], True) != (2, (62, 1)):
            said.append("a part of other inputs isn't seen")
        if len(texts) > 2 and join_cases([join_cases(texts[:2], True)[1], *texts[2:]], True) != answer:
            said.append("two steps don't come to the whole")
        other = changed(chance, texts[0])
        read = read_cases(other)
        if read and text_of(read.inputs, read.options, read.given, read.programs, read.lines, read.totals).encode() != other:
            said.append(f"a text is read that isn't printed so: {other}")
    return said


def main():
    parser = argparse.ArgumentParser(description="Tries the rules of joined texts of cases.")
    parser.add_argument("--runs", type=int, default=300)
    parser.add_argument("--seed", type=int, default=1)
    given = parser.parse_args()
    failed = 0
    for number in range(given.runs):
        what = holds(number, given.seed)
        for line in what:
            print(f"run {number}: {line}")
        failed += bool(what)
    print(f"{given.runs - failed} passed, {failed} failed")
    return 1 if failed else 0


if __name__ == "__main__":
    sys.exit(main())
