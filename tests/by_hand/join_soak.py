#!/usr/bin/env python3
"""Cuts random runs into parts and joins them, and gives `join` damaged texts.

    python3 tests/by_hand/join_soak.py [--cases] [--runs N] [--seed S] [PROGRAM]

PROGRAM is as in run.py; N is 300 where it isn't given, S is 1. A run has a log, one to three checkers and options picked at random,
as those of footprint_soak.py. It is cut at random places. Each part is judged by some number of workers, with or without a cache.
The parts are joined in a random order, some of them first by `join --part` and these joins with the others. That has to print the bytes of the run as a
whole and end with its status.

Then texts are damaged, several times for each run: a byte is changed, a line is dropped, doubled or moved, the end is cut off, a number
is another one, a part is left out or stands there twice, two texts change their places, or a text is of the same run with other options.
What `join` says is compared with the model (parts_model.py, case_parts_model.py): the bytes, or the number and the place of the refusal. Other bytes than
those of the whole are an answer only where each text is that of a part to the byte. A text has no checksum: an answer of 3 in place of 2
is a part of another run. How often that was so is counted and printed.

With --cases the runs are of any number of losses. `images --bound any --parts` lays them out, and parts are ranges of cuts.

Each run is made of its number and the seed alone. One that isn't as expected is printed, and `--only NUMBER` makes it again and leaves
its files in the folder join_soak. The last line is as in run.py. It takes some minutes, and is no part of the gate.
"""
import random
import re
import subprocess
import sys
from pathlib import Path

sys.dont_write_bytecode = True

import rooms

rooms.enter()

from case_parts_model import join_texts
from footprint_soak import checker, entry
from notation import log
from running import split_notes
from soaking import Soak, options, run_all

LIMIT = 120
MOST_IMAGES = 20_000
MOST_TEXT = 200_000
DAMAGES = 12


def pick_line(chance, text):
    lines = text.split(b"\n")
    return lines, chance.randrange(len(lines))


def change_byte(chance, text):
    at = chance.randrange(len(text))
    new = chance.choice([text[at] ^ 1 << chance.randrange(8), chance.randrange(256), *b"0123456789 \n,:-"])
    return text[:at] + bytes([new]) + text[at + 1 :]


def lose_byte(chance, text):
    at = chance.randrange(len(text))
    return text[:at] + text[at + 1 :]


def double_byte(chance, text):
    at = chance.randrange(len(text))
    return text[:at] + text[at : at + 1] + text[at:]


def drop_line(chance, text):
    lines, at = pick_line(chance, text)
    return b"\n".join(lines[:at] + lines[at + 1 :])


def double_line(chance, text):
    lines, at = pick_line(chance, text)
    return b"\n".join(lines[: at + 1] + lines[at:])


def move_line(chance, text):
    """Returns the text with a line in another place."""
    lines, at = pick_line(chance, text)
    line = lines.pop(at)
    lines.insert(chance.randrange(len(lines) + 1), line)
    return b"\n".join(lines)


def cut_off(chance, text):
    return text[: chance.randrange(len(text))]


def change_number(chance, text):
    """Returns the text with one number changed."""
    numbers = list(re.finditer(rb"\d+", text))
    found = chance.choice(numbers)
    new = chance.choice([int(found[0]) + 1, max(int(found[0]) - 1, 0), 2**32, 2**64, 2**64 - 1, 0, 88, 89])
    return text[: found.start()] + str(new).encode() + text[found.end() :]


def change_word(chance, text):
    pairs = [(b"drop", b"head1"), (b"tail7", b"tail8"), (b"yes", b"no"), (b"no", b"yes"), (b"all", b"mark"), (b"budget", b"limit")]
    old, new = chance.choice(pairs)
    return text.replace(old, new, 1)


OF_TEXT = [change_byte, change_byte, lose_byte, double_byte, drop_line, double_line, move_line, cut_off, change_number, change_number, change_word]


def damaged(chance, texts, whole):
    """The texts with some damage."""
    texts = list(texts)
    kind = chance.random()
    at = chance.randrange(len(texts))
    if kind < 0.7:
        texts[at] = chance.choice(OF_TEXT)(chance, texts[at])
    elif kind < 0.76:
        texts.append(texts[at])
    elif kind < 0.82 and len(texts) > 1:
        texts.pop(at)
    elif kind < 0.86:
        texts[at] = whole
    elif kind < 0.9:
        other = chance.choice(texts)
        half = chance.randrange(len(other))
        texts[at] = texts[at][: chance.randrange(len(texts[at]))] + other[half:]
    else:
        texts = [chance.choice(OF_TEXT)(chance, it) if chance.random() < 0.3 else it for it in texts]
    chance.shuffle(texts)
    return texts


class JoinSoak(Soak):
    def __init__(self, program, folder):
        super().__init__(program, folder)
        self.joins, self.taken = 0, 0

    def said(self):
        return f", {self.joins} joins, {self.taken} of them of damaged texts that are parts of another run"

    def called(self, words):
        """The status, standard output, and the line of a refusal."""
        done = subprocess.run([self.program, *words], cwd=self.folder, capture_output=True, timeout=LIMIT)
        return done.returncode, done.stdout, split_notes(done.stderr)[0].decode()

    def join(self, texts, some=False):
        """What `join` says of texts, with `some` what `join --part` does."""
        for number, text in enumerate(texts):
            Path(self.folder, f"t{number}").write_bytes(text)
        self.joins += 1
        return self.called(["join", *["--part"] * some, *(f"t{number}" for number in range(len(texts)))])

    def make(self, chance):
        """Writes a log and programs, and returns the words of the run after `explore`, and those of `images`."""
        sectors = chance.choice([3, 8, 16, 64])
        values = chance.sample(range(256), chance.choice([2, 3, 8]))
        entries = [entry(chance, sectors, values) for _ in range(chance.choice([3, 8, 12, 16]))]
        by_number = chance.random() < 0.3
        Path(self.folder, "log").write_bytes(log(entries))
        names = [f"p{place}" for place in range(chance.choice([1, 1, 2, 3]))]
        for name in names:
            Path(self.folder, name).write_bytes(self.assembler.assemble(checker(chance, sectors, by_number)))
        options = f"--sectors {sectors} --bound {chance.choice([1, 2, 2, 3])} --cuts {chance.choice(['all', 'flush', 'mark'])}"
        options += " --tears" * (chance.random() < 0.3) + " --by write" * (chance.random() < 0.3)
        last = len(entries)
        options += f" --flush {chance.randrange(last)},{chance.randrange(last)}" * (chance.random() < 0.2)
        options += f" --from {chance.randrange(last)}" * (chance.random() < 0.2)
        if chance.random() < 0.2:
            Path(self.folder, "base").write_bytes(chance.randbytes(chance.choice([1, 512, 700])))
            options += " --base base"
        of_run = " --checked 200" * (by_number or chance.random() < 0.1) + " --first" * (chance.random() < 0.25)
        return ["log", *names, *options.split(), *of_run.split()], ["images", "log", *options.split()]

    def part(self, chance, words, start, end):
        more = chance.choice(["", "", "--workers 2", "--workers 5", "--cache 16", "--workers 3 --cache 4096"])
        return self.called(["explore", *words, "--images", f"{start}..{end}", *more.split()])

    def parts(self, chance, words, total):
        """The texts of a run that is cut at random places, or what went wrong."""
        places = sorted(chance.sample(range(1, total), min(total - 1, chance.choice([0, 1, 2, 5, 12])))) if total > 1 else []
        ranges = list(zip([0, *places], [*places, total]))
        done = [self.part(chance, words, *it) for it in ranges]
        wrong = [f"--images {start}..{end}: {it[0]} {it[2]}" for (start, end), it in zip(ranges, done) if it[0] > 1]
        wrong += [f"--images {start}..{end}: the status is {it[0]}" for (start, end), it in zip(ranges, done) if it[0] != (b"\nimage " in it[1])]
        return [it[1] for it in done], wrong

    def in_steps(self, chance, texts):
        """The texts with some that stand in a row joined first."""
        while len(texts) > 2 and chance.random() < 0.7:
            start = chance.randrange(len(texts) - 1)
            end = chance.randrange(start + 1, len(texts)) + 1
            some = texts[start:end]
            chance.shuffle(some)
            status, out, error = self.join(some, True)
            if status > 1:
                return texts, [f"a join of {end - start} parts is refused: {error}"]
            if end - start < len(texts):
                texts = [*texts[:start], out, *texts[end:]]
        return texts, []

    def judge(self, chance, texts, whole):
        """What is wrong with the join of texts, by the model."""
        some = chance.random() < 0.4
        status, out, error = self.join(texts, some)
        wanted, said = join_texts(texts, some)
        right = (status, out, error) == (2, b"", "refused {} at {}\n".format(*said)) if wanted == 2 else (status, out, error) == (wanted, said, "")
        if right and status < 2 and out != whole:
            self.taken += 1
        return [] if right else [f"damaged: status {status}, {error.strip() or 'an answer'}; wanted {wanted} {said if wanted == 2 else ''}"]

    def differs(self, number, seed):
        """What is wrong with a run, or None where it is refused or too long."""
        chance = random.Random(f"{seed} {number}")
        words, survey = self.make(chance)
        counted = self.called(survey)
        total = int(counted[1].split()[-1]) if counted[0] == 0 else MOST_IMAGES + 1
        whole = self.called(["explore", *words]) if total <= MOST_IMAGES else (2,)
        if whole[0] == 2:
            return None
        texts, wrong = self.parts(chance, words, total)
        if wrong:
            return wrong
        return self.joined_and_damaged(chance, texts, whole)

    def joined_and_damaged(self, chance, texts, whole):
        """What is wrong with the joins of the texts of a run, in steps and at once, and of damaged ones."""
        steps, wrong = self.in_steps(chance, texts)
        chance.shuffle(steps)
        found = self.join(steps, chance.random() < 0.3)
        wrong += [] if found[:2] == whole[:2] else [f"joined of {len(texts)} parts: status {found[0]}, {found[2] or 'other bytes'}"]
        for _ in range(DAMAGES):
            wrong += self.judge(chance, damaged(chance, texts, whole[1]), whole[1])
            if wrong:
                break
        return wrong


class CasesSoak(JoinSoak):
    """The same of runs of any number of losses."""

    def make(self, chance):
        """Writes a random log and checkers, and returns the words of `explore` and of `images` on them."""
        sectors = chance.choice([3, 8, 16])
        values = chance.sample(range(256), chance.choice([2, 3]))
        entries = [entry(chance, sectors, values) for _ in range(chance.choice([3, 8, 12]))]
        Path(self.folder, "log").write_bytes(log(entries))
        names = [f"p{place}" for place in range(chance.choice([1, 1, 2]))]
        for name in names:
            Path(self.folder, name).write_bytes(self.assembler.assemble(checker(chance, sectors, False)))
        options = f"--sectors {sectors} --bound any --cuts {chance.choice(['all', 'all', 'flush', 'mark'])}"
        options += " --by write" * (chance.random() < 0.5) + f" --at-most {chance.choice([1, 2, 3])}" * (chance.random() < 0.4)
        options += f" --flush {chance.randrange(len(entries))}" * (chance.random() < 0.2)
        tears = f" --tears --torn {chance.choice([1, 2])}" if len(entries) < 4 and chance.random() < 0.7 else ""
        return ["log", *names, *options.split(), *tears.split()], ["images", "log", *options.split()]

    def parts(self, chance, words, survey):
        """The texts of a run as it is laid out, or what went wrong."""
        laid = self.called([*survey, "--parts", str(chance.choice([1, 2, 3, 5]))])
        ranges = [it.split()[1:] for it in laid[1].decode().split("\n") if it.startswith("part ")]
        done = [self.called(["explore", *words, *it, *chance.choice(["", "--workers 2"]).split()]) for it in ranges]
        return [it[1] for it in done], [f"{' '.join(it)}: {one[0]} {one[2]}" for it, one in zip(ranges, done) if one[0] > 1]

    def differs(self, number, seed):
        """Joins the parts of a random run, whole and damaged, and compares."""
        chance = random.Random(f"cases {seed} {number}")
        words, survey = self.make(chance)
        whole = self.called(["explore", *words])
        if whole[0] == 2 or len(whole[1]) > MOST_TEXT:
            return None
        texts, wrong = self.parts(chance, words, survey)
        if wrong:
            return wrong
        return self.joined_and_damaged(chance, texts, whole)


def main():
    parser = options("Cuts random runs into parts and joins them, and gives join damaged texts.", 300)
    parser.add_argument("--cases", action="store_true")
    given = parser.parse_args()
    return run_all(given, "join_soak", CasesSoak if given.cases else JoinSoak)


if __name__ == "__main__":
    sys.exit(main())
