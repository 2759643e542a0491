#!/usr/bin/env python3
"""Tries the rules of records (docs/OUTPUT.md, 'Records of a program of yours') on many random runs, by the model known_model.py.

    python3 tests/by_hand/known_soak.py [--runs N] [--seed S] [--only NUMBER] [PROGRAM]

N is 2,000 where it isn't given, S is 1. Where PROGRAM is given, what `explore` and `export` print by each text of records is compared with
the model, to the byte, with its status; and each text that is refused is refused by the program too, at the same line. A run has a log of up to eight entries, what the device held before, and options picked at random:
the cuts, tears, `--torn`, `--at-most`, `--by`, `--from`, `--to`, `--flush`, `--stop-at-failing` and `--cases`. A judge reads some bytes, of
which sectors hangs on what it found; it ends with a status, by a signal or out of time. From an empty text it goes round by round: what is
exported is judged, or only some of it, and records are appended. On their way they are shuffled, doubled, put together with a second head,
and cut off. A record may leave out sectors that no entry covers, and may have more than the judge looked at.

After each round all choices of each cut are made, one by one. Each has to be in exactly one case that is told, open, left out or pending;
by the text alone it is told in what those of told cases end; and no record tells what is wanted, as is seen by comparing all bytes. At the
end nothing is wanted, after no more rounds than there may be. The text is then that of the same judge as a checker, with `--cases` and
`--stop-at-failing` the beginning of each cut of it. With other options the same records tell no choice otherwise than the judge. Texts
that are damaged are refused with their number and line. It takes some ten minutes, and is no part of the gate.
"""
import argparse
import random
import subprocess
import sys
import tempfile
from dataclasses import replace
from pathlib import Path

sys.dont_write_bytecode = True

import rooms

rooms.enter()

import export_model
import known_model
from cases_model import LOST, Cut, Losses, cases, choices, image_of, judged_cuts, read_case, read_line
from known_model import Ended, Refused, head_text, record_text, told
from model import Checker, covered
from notation import FLUSH, FUA, SECTOR, log, random_entry
from parts_model import WideRun

# At most as many choices are made of a cut, and as many rounds of a run in which only some is judged.
MOST, MOST_ROUNDS = 256, 200
# How many seconds the program may take.
LIMIT = 120
WORDS, SUM = "./check {}", "5f0c"


def some_entry(chance, sectors, values):
    """An entry of a log in which much is in flight: mostly a write, of one value or of several."""

    def sector():
        pieces = [chance.choice(values) for _ in range(8)] if chance.random() < 0.3 else [chance.choice(values)] * 8
        return b"".join(bytes([it]) * (SECTOR // 8) for it in pieces)

    return random_entry(chance, sectors, (0.08, 0.12, 0.18), [1, 1, 1, 2], ((0.05, FUA), (0.03, FLUSH)), sector)


def some_judge(chance, sectors):
    """A judge that goes on or ends by what it finds."""
    steps = [
        (chance.randrange(sectors), chance.randrange(SECTOR), chance.random() < 0.3, chance.randint(3, 9), chance.randint(0, 2))
        for _ in range(chance.choice([0, 1, 2, 3, 4, 5, 6]))
    ]
    begins_with_marks = chance.random() < 0.3
    ends = [Ended("answer 0")] * 3 + [Ended(chance.choice(["answer 1", "answer 255", "signal 11", "out of time", "answer 0"])) for _ in range(2)]

    def judge(view):
        found = view.marks() if begins_with_marks else 0
        for at, place, by_found, modulus, stop in steps:
            found = (found * 3 + view.sector(found % sectors if by_found else at)[place]) % 1_000_003
            if found % modulus == stop:
                return ends[found % len(ends)]
        return ends[found % len(ends)]

    return judge


def some_run(chance):
    """A random run, what is asked of losses, and a judge."""
    sectors, values = chance.choice([2, 3, 4]), chance.sample(range(256), chance.choice([2, 3]))
    entries = [some_entry(chance, sectors, values) for _ in range(chance.choice([1, 3, 4, 5, 6, 7, 8]))]
    run = with_options(chance, entries, sectors, chance.choice([b"", bytes([values[0]]) * SECTOR]), chance.choice(["sector", "write"]))
    losses = Losses(
        chance.choice([None, 1, 2]) if run.tears else None,
        chance.choice([None, None, None, 1, 2]),
        chance.random() < 0.25,
        chance.choice([None] * 6 + [1, 2, 5]),
    )
    return run, losses, some_judge(chance, sectors)


def with_options(chance, entries, sectors, base, by):
    """A run of these entries with options on which H doesn't hang."""
    first, last = sorted(chance.randint(0, len(entries)) for _ in range(2))
    flush = tuple(sorted(chance.sample(range(len(entries)), min(len(entries), chance.choice([0, 0, 0, 1, 2])))))
    kind, tears = chance.choice(["all"] * 7 + ["flush", "mark"]), chance.random() < 0.35
    given = chance.choice([None] * 4 + [first]), chance.choice([None] * 4 + [last])
    return WideRun(entries, sectors, kind, tears=tears, by=by, flush=flush, first=given[0], last=given[1], base=base)


def is_small(run):
    cuts = [Cut(run, it) for it in judged_cuts(run)]
    return all(len(it.fates) ** len(it.parts) <= MOST for it in cuts)


def looked_in(chance, run, looked, is_wide):
    """The sectors that a record has, of those at which a judge looked: without some that no entry covers, or with more, in any order."""
    written, more = covered(run), [it for it in range(run.sectors) if it not in looked]
    kept = [it for it in looked if it in written or chance.random() < 0.5]
    wide = kept + chance.sample(more, chance.randint(0, len(more)))
    return chance.sample(wide, len(wide)) if is_wide and chance.random() < 0.5 else kept


class Program:
    """The program under test, if one is, with the folder of its files."""

    def __init__(self, name, folder):
        self.name, self.folder = name and str(Path(name).resolve()), Path(folder)

    def called(self, command, run, losses, content):
        """What a command answers on a log and a text of records: its status, what it prints, and what it says of it."""
        for name, held in (("log", log(run.recorded)), ("base", run.base), ("known", content)):
            (self.folder / name).write_bytes(held)
        words = run.options().replace("--bound 1", losses.options()).split()
        done = subprocess.run([self.name, command, "log", *words, "--known", "known"], cwd=self.folder, capture_output=True, timeout=LIMIT)
        return done.returncode, done.stdout, done.stderr.decode()

    def differs(self, it, content, stated, text):
        """What the program says otherwise than the model."""
        for command, wanted in (("explore", (stated, text)), ("export", (0, known_model.exported(it)))) if self.name else ():
            status, out, error = self.called(command, it.run, it.losses, content)
            if (status, out) != wanted:
                yield f"{command} ends with {status} in place of {wanted[0]}, and prints {out} in place of {wanted[1]}: {error}"

    def refuses(self, run, losses, content, place):
        """What is otherwise where the text of records has to be refused at a line, or where there is none taken."""
        if not self.name:
            return []
        status, out, error = self.called("explore", run, losses, content)
        wanted = f"refused 16 at {place}\n"
        return [] if (status, out) == (2, b"") and error.startswith(wanted) else [f"the program says {status} {error} in place of {wanted}"]


class Rounds:
    """The rounds of a run: its records so far, as their lines."""

    def __init__(self, chance, run, losses, judge, program):
        self.chance, self.run, self.losses, self.judge, self.program = chance, run, losses, judge, program
        self.inputs, self.lines, self.content = known_model.inputs_of(run), [], b""
        self.is_wide = chance.random() < 0.3

    def told(self, losses=None):
        return told(self.run, self.content, losses or self.losses, self.inputs)

    def put(self):
        """Makes the text of the records so far, in some form."""
        chance, head = self.chance, head_text(self.inputs, WORDS, SUM)
        if chance.random() < 0.3:
            chance.shuffle(self.lines)
        lines = self.lines + chance.sample(self.lines, chance.randint(0, len(self.lines))) * (chance.random() < 0.2)
        at = chance.randint(0, len(lines)) if chance.random() < 0.2 else 0
        self.content = "".join([head, *lines[:at], head * (at > 0), *lines[at:]]).encode()

    def judged(self):
        """Judges what is exported, or some of it. Returns how many images are wanted."""
        text = known_model.exported(self.told())
        found = list(export_model.read(text, export_model.initial(self.run)))
        fresh, copies = known_model.wanted(self.told()), known_model.wanted(self.told())
        images = [(words, device) for words, device in found if device is not None]
        assert [device for _words, device in images] == [it.content() for it in copies]
        new = [it for it, (words, _device) in zip(fresh, images) if words[-2] == "new"]
        if self.chance.random() < 0.2:
            new = self.chance.sample(new, self.chance.randint(min(1, len(new)), len(new)))
        for image in new:
            ending = self.judge(image)
            self.lines.append(record_text(image, ending.said, looked_in(self.chance, self.run, list(image.looked), self.is_wide)))
        return len(images)


def choices_hold(it, judge):
    """What isn't as the rules say of all choices of the cuts."""
    text = known_model.explored(it)[1].decode()
    lines = {}
    for line in text.splitlines():
        if line.startswith("cut "):
            lines.setdefault(int(line.split()[1]), []).append(line)
    for cut, found in it.cuts():
        names = [part.name for part in cut.parts]
        said = [(read_case(line, names, cut.fates), read_line(line)[1]) for line in lines.get(cut.number, [])]
        leaves, rest = found.leaves, [*found.open, *found.pending]
        if bool(found.pending) and not (it.losses.at_failing or it.losses.cases):
            yield f"cut {cut.number}: a case is pending that nobody stopped"
        for choice in choices(cut):
            own = [(ending, good) for case, ending, good in leaves if case.holds(choice)]
            others = sum(case.holds(choice) for case in rest)
            torn, lost = sum(fate not in LOST for fate in choice.values()), sum(fate != "whole" for fate in choice.values())
            asked = torn <= it.losses.most_torn(it.run) and (it.losses.most is None or lost <= it.losses.most)
            if len(own) + others > 1 or asked and not own and not others:
                yield f"cut {cut.number}: a choice is in {len(own)} told cases and {others} others"
            ended = judge(image_of(it.run, cut.number, choice))
            if any(one != (ended.text, ended.good) for one in own):
                yield f"cut {cut.number}: a choice ends otherwise than its case says"
            words = [text for fates, text in said if all(fate in fates[part.name] for part, fate in choice.items())]
            if words != ([ended.text] if own and not ended.good else []):
                yield f"cut {cut.number}: the text doesn't tell what a choice ends in"
        yield from wanted_hold(it, cut, found)


def wanted_hold(it, cut, found):
    """What isn't as the rules say of what is wanted and of what is told at a cut, by all bytes of the images."""
    for case in found.open:
        image = case.representative()
        if any(record.tells(image.sector, image.marks()) for record in it.known.records):
            yield f"cut {cut.number}: a record tells what is wanted"
    for case, ending, _good in found.leaves:
        image = case.representative()
        telling = [record for record in it.known.records if record.tells(image.sector, image.marks())]
        if not telling or telling[0].text != ending or cut.split(case, list(telling[0].found)):
            yield f"cut {cut.number}: a leaf isn't told by the first record"


def beginning(run, losses, judge):
    """The totals and the lines that the judge as a checker comes to, where each cut is stopped."""
    return cases(run, [Checker(f"outside {WORDS}\nsum {SUM}", judge, of_records=True)], losses, known_model.inputs_of(run))


def leaves_of(run, checker, losses):
    """The leaves of each cut, in order: which fates each leaves the parts."""
    return [[case.known for case, _ending, _good in Cut(run, it).explore(checker, losses).leaves] for it in judged_cuts(run, losses)]


def ends_hold(it, status, text):
    """What isn't as the rules say of the end of a text and of the status, by the cases of each kind."""
    found = known_model.kinds(it)
    for cut, own in it.cuts():
        count, fails = len(own.leaves) + len(own.open), [not good for _case, _ending, good in own.leaves]
        ends = it.losses.at_failing and fails[-1:] == [True] or count == it.losses.cases
        if it.losses.cases and count > it.losses.cases or it.losses.at_failing and any(fails[:-1]) or own.pending and not ends:
            yield f"cut {cut.number} was searched to {count} cases, of which {sum(fails)} fail, and {len(own.pending)} are pending"
    stopped = sum(bool(own.pending) for _cut, own in it.cuts())
    is_whole = not found["open"] and not found["beyond"] and not stopped
    if text.endswith((" complete\n", " of these cuts\n")) != is_whole or f" open {found['open']} stopped {stopped}" not in text:
        yield f"the text ends {text.splitlines()[-1]}, and there are {dict(found)} of {stopped} stopped cuts"
    fails = any(not good for _cut, own in it.cuts() for _case, _ending, good in own.leaves)
    if status != (1 if fails else 0 if is_whole else 3):
        yield f"the status is {status}"


def refused(run, content, losses, inputs):
    """What a text is refused with, or None."""
    try:
        told(run, content, losses, inputs)
    except Refused as fault:
        return fault.args
    return None


def damage_holds(rounds):
    """What isn't as the rules say of damaged texts."""
    chance, head = rounds.chance, head_text(rounds.inputs, WORDS, SUM)
    content, lines = (head + "".join(rounds.lines)).encode(), rounds.lines
    end = 4 + len(lines)

    def is_refused(what, text, *wanted):
        found = refused(rounds.run, text, rounds.losses, rounds.inputs)
        if found != wanted:
            return [f"{what}: {found} in place of {wanted}"]
        return [f"{what}: {it}" for it in rounds.program.refuses(rounds.run, rounds.losses, text, found[1])] if found else []

    said = is_refused("no newline", content[:-1], 17, end)
    said += is_refused("a part of a head", content + head[: head.index("sum")].encode(), 17, end + 4)
    said += is_refused("another program", content + head.replace(WORDS, "./other {}").encode(), 18, end + 3)
    said += is_refused("another sum", content + head.replace(SUM, "5f0d").encode(), 18, end + 4)
    said += is_refused("other inputs", head.replace(str(rounds.inputs), str(rounds.inputs ^ 1)).encode(), 18, 2)
    said += is_refused("no head", "".join(lines).encode(), *((17, 1) if lines else (None,))) if lines else []
    if lines:
        number = chance.randrange(len(lines))
        words = lines[number].split(" ")
        ending = chance.choice([it for it in ("answer 7", "signal 9", "out of time") if f" {it} " not in lines[number]])
        other = f"{' '.join(words[:7])} {ending} looked {words[-1]}"
        said += is_refused("a contradiction", content + other.encode(), 19, end + 1)
        for what, place, word in (("cut", 2, "9"), ("choice", 4, "0.0:gone"), ("choice", 4, "8.0:drop"), ("marks", 6, "9"), ("looked", -1, f"{rounds.run.sectors}\n"), ("looked", -1, "1,0-1\n")):
            changed = [*words]
            changed[place] = word
            said += is_refused(f"another {what}", content + " ".join(changed).encode(), 17, end + 1)
    return said


def run_holds(number, seed, program):
    """What isn't as the rules say of the run with that number; None where it has too many choices."""
    chance = random.Random(f"{seed} {number}")
    run, losses, judge = some_run(chance)
    if not is_small(run):
        return None
    rounds, count, said = Rounds(chance, run, losses, judge, program), 0, []
    wanted = True
    while wanted and count < MOST_ROUNDS:
        it = rounds.told()
        stated, text = known_model.explored(it)
        said += [*ends_hold(it, stated, text.decode()), *(choices_hold(it, judge) if chance.random() < 0.5 or not count else [])]
        said += program.differs(it, rounds.content, stated, text)
        if rounds.lines and chance.random() < 0.1:
            # (as of a run that was killed)
            del rounds.lines[chance.randrange(len(rounds.lines)) :]
            rounds.put()
        wanted, count = rounds.judged(), count + 1
        rounds.put()
    if wanted:
        said.append("something is wanted after all rounds")
    it = rounds.told()
    said += choices_hold(it, judge)
    found, expected = known_model.explored(it), beginning(run, losses, judge)
    said += program.differs(it, rounds.content, *found)
    if found[1].decode() != expected and not rounds.is_wide:
        said.append(f"the text is {found[1].decode()}, and not {expected}")
    plain = cases(run, [Checker(f"outside {WORDS}\nsum {SUM}", judge)], replace(losses, at_failing=False, cases=None), rounds.inputs)
    same = found[1].decode().replace(" open 0 stopped 0", "")
    if " stopped 0" in expected and not rounds.is_wide and "".join(line for line in same.splitlines(True) if not line.startswith("inputs")) != "".join(
        line for line in str(plain).splitlines(True) if not line.startswith("inputs")
    ):
        said.append(f"the text isn't that of a checker: {same}")
    if not rounds.is_wide and leaves_of(it.run, it.checker, losses) != leaves_of(run, Checker("", judge), losses):
        said.append("the leaves aren't those of a checker")
    said += ends_hold(it, *(found[0], found[1].decode()))
    said += damage_holds(rounds)
    other = with_options(chance, run.recorded, run.sectors, run.base, run.by)
    if is_small(other):
        other_losses = Losses(None, chance.choice([None, 1]), chance.random() < 0.3, None)
        said += choices_hold(told(other, rounds.content, other_losses, rounds.inputs), judge)
    return said


def rounds_hold(number, seed):
    """Whether a run in which all that is wanted is judged ends after no more rounds than there may be."""
    chance = random.Random(f"{seed} rounds {number}")
    run, losses, judge = some_run(chance)
    if not is_small(run):
        return None
    inputs, text, count = known_model.inputs_of(run), head_text(known_model.inputs_of(run), WORDS, SUM), 0
    while images := known_model.wanted(told(run, text.encode(), losses, inputs)):
        for image in images:
            ending = judge(image)
            text += record_text(image, ending.said, list(image.looked))
        count += 1
    most = known_model.most_rounds(run, losses)
    return [] if count <= most else [f"{count} rounds, and there may be {most}"]


def main():
    parser = argparse.ArgumentParser(description="Tries the rules of records on random runs.")
    parser.add_argument("--runs", type=int, default=2_000)
    parser.add_argument("--seed", type=int, default=1)
    parser.add_argument("--only", type=int)
    parser.add_argument("program", nargs="?")
    given = parser.parse_args()
    passed = failed = number = 0
    number = given.only or 0
    with tempfile.TemporaryDirectory() as folder:
        program = Program(given.program, folder)
        while passed + failed < (1 if given.only is not None else given.runs):
            found = [run_holds(number, given.seed, program), rounds_hold(number, given.seed)]
            what = None if found == [None, None] else [line for it in found if it for line in it]
            for line in what or []:
                print(f"run {number}: {line}", flush=True)
            passed, failed = passed + (what == []), failed + bool(what)
            number += 1
    print(f"{passed} passed, {failed} failed")
    return 1 if failed else 0


if __name__ == "__main__":
    sys.exit(main())
