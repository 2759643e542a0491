#!/usr/bin/env python3
"""Compares the search of `crashbpf-each --bound any` with the model known_model.py, on the random runs of known_soak.py.

    python3 tests/by_hand/step_soak.py [--runs N] [--seed S] [--only NUMBER]

N is 1,000 where it isn't given, S is 1. From no record it goes round by round as known_soak.py does. After each round the text of cases, its
status and the images that are wanted have to be those of the model, for the options of the run and for others over the same records. The
records are read anew each time, and beside that a search is gone on with as they come. Damaged texts of records have to be refused at the
line at which the model refuses them. No program is run. It is no part of the gate.
"""
import argparse
import random
import sys
import tempfile
from pathlib import Path

sys.dont_write_bytecode = True

import rooms

rooms.enter()

import known_model
from cases_model import Losses, head
from commands.each.known import Known
from commands.each.step import Searched, asked_of, cuts_of, flushes_of, images_of, searches_of
from commands.each.words import Words
from commands.shared.faults import Refusal
from known_model import Refused, head_text, told
from known_soak import SUM, WORDS, Rounds, is_small, some_run, with_options
from notation import log


def words_of(run, losses, room):
    """The words of a run, as crashbpf-each has them."""
    named = (
        ("--sectors", run.sectors),
        ("--base", f"{room}/base" if run.base else None),
        ("--flush", ",".join(map(str, run.flush)) or None),
        ("--cuts", run.cuts),
        ("--from", run.first),
        ("--to", run.last),
        ("--by", run.by),
        ("--torn", losses.torn),
        ("--at-most", losses.most),
        ("--cases", losses.cases),
    )
    flags = [("--tears", None)] * run.tears + [("--stop-at-failing", None)] * losses.at_failing
    return Words(f"{room}/log", [(name, str(value)) for name, value in named if value is not None] + flags, ["./check", "{}"])


def known_of(given, content, inputs):
    """The records of a text, as crashbpf-each reads them; for a refusal the number of its line."""
    known = Known(images_of(given), head_text(inputs, WORDS, SUM).splitlines())
    try:
        for it in content.decode().splitlines():
            known.read(it)
        known.test_begun()
    except Refusal:
        return None, known.lines
    return known, None


def searched_of(given, known):
    images = images_of(given, flushes_of(given))
    return Searched(searches_of(images, asked_of(given), cuts_of(given, images.entries)), known)


def first_ones(images):
    """The wanted images without those that are equal to an earlier one, as the cut and the choice of each."""
    seen, found = set(), []
    for it in images:
        key = it.content(), it.marks()
        if key not in seen:
            found.append((it.cut, it.choice()))
        seen.add(key)
    return found


def step_differs(it, searched):
    """What a search has otherwise than the model."""
    status, text = known_model.explored(it)
    about = head(it.run, [], it.losses)
    wanted = [(image.cut, image.choice.decode()) for image in searched.wanted()]
    totals, found = searched.text(about.rstrip("\n"))
    if (totals.status(), found.encode()) != (status, text):
        yield f"the text is, with status {totals.status()},\n{found}and has to be, with {status},\n{text.decode()}"
    if wanted != first_ones(known_model.wanted(it)):
        yield f"wanted is {wanted}, and has to be {first_ones(known_model.wanted(it))}"


def damaged(chance, rounds):
    """Texts of records that have something wrong."""
    text = head_text(rounds.inputs, WORDS, SUM)
    content = text + "".join(rounds.lines)
    yield content + text[: text.index("sum")]
    yield content + text.replace(WORDS, "./other {}")
    yield content + text.replace(SUM, "5f0d")
    yield text.replace(str(rounds.inputs), str(rounds.inputs ^ 1)) + "".join(rounds.lines)
    yield content + "ran\n"
    if not rounds.lines:
        return
    yield "".join(rounds.lines)
    words = chance.choice(rounds.lines).rstrip("\n").split(" ")
    for ending in ("answer 7", "signal 9", "out of time", "answer 256", "signal 0", "signal 128"):
        yield f"{content}{' '.join(words[:7])} {ending} looked {words[-1]}\n"
    for place, word in ((2, "9"), (2, "07"), (4, "0.0:gone"), (4, "8.0:drop"), (4, "00:drop"), (4, "1:drop,0:drop"), (4, "0:whole"), (6, "9"), (-1, f"{rounds.run.sectors}"), (-1, "1,0-1"), (-1, "1-1")):
        yield f"{content}{' '.join([*words[:place], word, *words[place:][1:]])}\n"


def damage_differs(chance, rounds, given):
    """What is said of damaged texts otherwise than by the model."""
    for text in damaged(chance, rounds):
        try:
            told(rounds.run, text.encode(), rounds.losses, rounds.inputs)
            line = None
        except Refused as fault:
            line = fault.args[1]
        found = known_of(given, text.encode(), rounds.inputs)[1]
        if found != line:
            yield f"refused at {found}, and has to be at {line}:\n{text}"


def run_differs(number, seed):
    """What isn't as the model has it in the run with that number; None where it has too many choices."""
    chance = random.Random(f"{seed} {number}")
    run, losses, judge = some_run(chance)
    if not is_small(run):
        return None
    with tempfile.TemporaryDirectory() as room:
        Path(room, "log").write_bytes(log(run.recorded))
        Path(room, "base").write_bytes(run.base)
        given, rounds = words_of(run, losses, room), Rounds(chance, run, losses, judge)
        said, going, wanted = [], None, 1
        while wanted and len(rounds.lines) < 400:
            if going is None:
                rounds.content = (head_text(rounds.inputs, WORDS, SUM) + "".join(rounds.lines)).encode()
                going = searched_of(given, known_of(given, rounds.content, rounds.inputs)[0])
            said += step_differs(rounds.told(), going)
            before = list(rounds.lines)
            wanted = rounds.judged()
            for it in rounds.lines[len(before) :]:
                going.known.read(it.rstrip("\n"))
            rounds.content = (head_text(rounds.inputs, WORDS, SUM) + "".join(rounds.lines)).encode()
            said += step_differs(rounds.told(), going)
            before = list(rounds.lines)
            rounds.put()
            said += step_differs(rounds.told(), searched_of(given, known_of(given, rounds.content, rounds.inputs)[0]))
            # (in another order another record may be the first to tell an image)
            going = going if rounds.lines == before else None
        other = with_options(chance, run.recorded, run.sectors, run.base, run.by)
        if is_small(other):
            rest = Losses(None, chance.choice([None, 1]), chance.random() < 0.3, None)
            words = words_of(other, rest, room)
            said += step_differs(told(other, rounds.content, rest, rounds.inputs), searched_of(words, known_of(words, rounds.content, rounds.inputs)[0]))
        return [*said, *damage_differs(chance, rounds, given)]


def main():
    parser = argparse.ArgumentParser(description="Compares the search of crashbpf-each with the model of records.")
    parser.add_argument("--runs", type=int, default=1_000)
    parser.add_argument("--seed", type=int, default=1)
    parser.add_argument("--only", type=int)
    given = parser.parse_args()
    passed = failed = 0
    number = given.only or 0
    while passed + failed < (1 if given.only is not None else given.runs):
        what = run_differs(number, given.seed)
        for line in what or []:
            print(f"run {number}: {line}", flush=True)
        passed, failed = passed + (what == []), failed + bool(what)
        number += 1
    print(f"{passed} passed, {failed} failed")
    return 1 if failed else 0


if __name__ == "__main__":
    sys.exit(main())
