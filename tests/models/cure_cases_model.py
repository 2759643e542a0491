#!/usr/bin/env python3
"""The cure of a log by its cases, whatever was lost, in the plainest form.

Written from docs/CRASH-MODEL.md, 'Any number of losses' and 'Where a flush helps', and docs/OUTPUT.md, 'The text of `cure`' and 'The text
of cases', and from nothing of the program under test. The cases of a cut are those of cases_model.py, and the places of flushes those of
cure_model.py.

    python3 tests/models/cure_cases_model.py [--runs N] [--seed S]

holds the model against what the documents say of it, on N small logs of random entries (300 where it isn't given) and on the designs of
examples/. A flush that is added lies in the window of a case that fails then, and in each such window one is added. No case that is left
has a window: it has an image that no flush takes away. All choices of each cut are tried: one on which a checker fails is one of a case
that is left. On each design no more flushes are added than where the losses are bounded. It prints `N passed, M failed`, and needs no
program.
"""
import argparse
import random
import sys
from dataclasses import dataclass

sys.dont_write_bytecode = True

import rooms

rooms.enter()

import cases_model
import cure_model
from cases_model import ANY, Cut, Losses, case_line, choices, ended, image_of, is_left_before, judged_cuts
from cure_model import Window, missing, with_flushes
from designs import DESIGNS, checker_of
from model import Run
from notation import FLUSH, SECTOR

# At most as many choices are tried of a cut.
MOST = 600


@dataclass(frozen=True)
class Failing:
    """A failing case of a program: the case, its line in the text of cases, and its window or None."""

    program: int
    case: object
    line: str

    @property
    def window(self):
        found = cases_model.window_of(self.case)
        return Window(*found) if found else None


def failures(run, checkers, losses):
    """The failing cases of a run, by cut, by program and in the order of the tree."""
    for cut in (Cut(run, number) for number in judged_cuts(run, losses)):
        for program, checker in enumerate(checkers):
            for number, (case, ending, good) in enumerate(cut.explore(checker, losses).leaves):
                if not good:
                    yield Failing(program, case, case_line(case, program, number, ending))


def rounds(run, checkers, losses):
    """The runs of a cure: each with its failing cases and the flushes that are added after it, none in the last."""
    added = [None]
    while added:
        found = list(failures(run, checkers, losses))
        added = missing([it.window for it in found if it.window])
        yield run, found, added
        run = with_flushes(run, [it.at for it in added])


def cure_cases(run, checkers, losses=ANY):
    """What `cure --bound any` prints, where no run has too many cases."""
    made = list(rounds(run, checkers, losses))
    _run, found, _added = made[0]
    text = "crash cure cases 1\n" + cases_model.head(run, checkers, losses)
    for number in range(len(checkers)):
        own = [it for it in found if it.program == number]
        text += f"program {number} failing {len(own)} uncured {sum(it.window is None for it in own)}\n"
    text += next((f"no flush cures {it.line}" for it in found if it.window is None), "")
    for number, (_run, _found, added) in enumerate(made, 1):
        text += "".join(f"round {number} flush before {it.at} from {it.first} failing {it.failing}\n" for it in added)
    last, _found, _added = made[-1]
    return text + cases_model.cases(last, checkers, losses).splitlines(True)[-1]


# The laws


def round_holds(run, found, added):
    """What isn't as the documents say of the flushes that are added after a run."""
    windows = [it.window for it in found if it.window]
    for it in added:
        if run.entries[it.at].flags & FLUSH:
            yield f"a flush is added before entry {it.at}, which is one"
        if not any(window.holds(it.at) for window in windows):
            yield f"a flush before {it.at} is in no window"
    if any(not any(window.holds(it.at) for it in added) for window in windows):
        yield "a window has no flush"
    if sum(it.failing for it in added) != len(windows):
        yield "a failing case isn't counted once"


def last_holds(run, checkers, losses, found):
    """What isn't as the documents say of the cases that are left."""
    if not all(is_left_before(it.case) for it in found):
        yield "a case that is left has no image that no flush takes away"
    for cut in (Cut(run, number) for number in judged_cuts(run, losses)):
        if len(cut.fates) ** len(cut.parts) > MOST:
            continue
        for choice in choices(cut):
            image = image_of(run, cut.number, choice)
            torn = sum(fate not in cases_model.LOST for fate in choice.values())
            lost = sum(fate != "whole" for fate in choice.values())
            if torn > losses.most_torn(run) or losses.most is not None and lost > losses.most:
                continue
            for program, checker in enumerate(checkers):
                own = [it for it in found if it.program == program and it.case.cut.number == cut.number and it.case.holds(choice)]
                if ended(checker.judge(image))[1] == bool(own):
                    yield f"cut {cut.number}: what a choice ends in isn't told"


def run_holds(run, checkers, losses):
    """What isn't as the documents say of the cure of a run."""
    made = list(rounds(run, checkers, losses))
    for its, found, added in made:
        yield from round_holds(its, found, added)
    last, found, _added = made[-1]
    if any(it.window for it in found):
        yield "a case that is left has a window"
    yield from last_holds(last, checkers, losses, found)


def some_run(number, seed):
    """The run with that number, with its checkers and what is asked of losses."""
    chance = random.Random(f"{seed} {number}")
    sectors, values = chance.choice([2, 3, 4]), chance.sample(range(256), chance.choice([2, 3]))
    entries = [cases_model.some_entry(chance, sectors, values) for _ in range(chance.randint(2, 7))]
    base = chance.choice([b"", bytes([values[0]]) * SECTOR])
    run = Run(entries, sectors, chance.choice(["all", "all", "flush"]), by=chance.choice(["sector", "write"]), tears=chance.random() < 0.3, base=base)
    losses = Losses(chance.choice([None, 1, 2]) if run.tears else None, chance.choice([None, None, 1, 2]))
    return run, [cases_model.some_checker(chance, sectors) for _ in range(chance.randint(1, 2))], losses


def places(made):
    return sorted(it.at for *_rest, added in made for it in added)


def bounded_places(which):
    """The flushes that `cure` adds to a design where its losses are bounded."""
    run, checkers, found = DESIGNS[which], [checker_of(which)], []
    while added := missing([it.window for it in cure_model.failures(run, checkers) if it.window]):
        found += [it.at for it in added]
        run = with_flushes(run, [it.at for it in added])
    return sorted(found)


def main():
    parser = argparse.ArgumentParser(description="Tries what is said of a cure by cases.")
    parser.add_argument("--runs", type=int, default=300)
    parser.add_argument("--seed", type=int, default=1)
    given = parser.parse_args()
    found = {f"run {number}": list(run_holds(*some_run(number, given.seed))) for number in range(given.runs)}
    for which, run in DESIGNS.items():
        any_number, bounded = places(rounds(run, [checker_of(which)], ANY)), bounded_places(which)
        found[which] = [] if len(any_number) <= len(bounded) else [f"flushes before {any_number}, and with a bound before {bounded}"]
    for name, said in found.items():
        for line in said:
            print(f"{name}: {line}")
    failed = sum(map(bool, found.values()))
    print(f"{len(found) - failed} passed, {failed} failed")
    return 1 if failed else 0


if __name__ == "__main__":
    sys.exit(main())
