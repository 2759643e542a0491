#!/usr/bin/env python3
"""Compares `crashbpf-each --again` with the model again_model.py and with all choices, on random logs and programs.

    python3 tests/by_hand/again_soak.py [--runs N] [--seed S] [--only NUMBER]

N is 200 where it isn't given, S is 1. A run has a small log and a program that reads, writes and syncs by what it finds. The rounds are those
of the script, but for the server: who judges is the program as a function, and what it looks at and does to its image is noted by the
script's own files. The text, its status and the notes have to be those of the model. Then each choice of each second cut of each choice of
each cut has to end as a case says. No program is run. It is no part of the gate.
"""
import argparse
import random
import sys
import tempfile
from pathlib import Path

sys.dont_write_bytecode = True

import rooms

rooms.enter()

import again_model
import known_model
from again_model import Device, some_program, some_run
from cases_model import Losses, head
from commands.each.again import Again
from commands.each.known import Known, Record
from commands.each.second_images import image_said
from commands.each.second_log import Noted, NotedImage, SecondLogs
from commands.each.served_tree import Looks, image_folder
from commands.each.step import Searched, asked_of, cuts_of, flushes_of, images_of, searches_of
from commands.shared.verdicts import EXIT, Verdict
from known_model import head_text
from notation import log
from step_soak import words_of


class Served(Device):
    """The file of a run as a program of the model has it."""

    def __init__(self, file):
        self.file = file

    def read(self, at, size):
        return self.file.read(at, size)

    def write(self, at, data, forced=False, direct=False):
        self.file.asked_by(0, 0o10000 * forced | 0o40000 * direct)
        self.file.write(at, data)

    def sync(self):
        self.file.sync()


class Judged:
    """What stands for the server and the runners: an image is judged by the program as a function."""

    def __init__(self, known, program):
        self.known, self.program, self.logs, self.runs = known, program, SecondLogs(), 0

    def judge(self, image):
        """Returns what the program ends in, the sectors at which it looked, and what it did to the image where that is noted."""
        self.runs += 1
        looks = Looks(image_said(self.known.images, image.cut, image.choice.decode(), self.logs))
        is_first = looks.image.images is self.known.images
        looks.noted = Noted()
        file = image_folder(looks, NotedImage).names[b"image"]
        verdict = Verdict(EXIT, self.program(Served(file), image.marks))
        log = looks.noted.told() if is_first else b""
        return verdict, list(looks.looked), self.logs.keep(log, looks.image).encode() + log

    def rounds(self, step, take):
        """Goes round by round until nothing is wanted."""
        while wanted := step.wanted():
            for it in wanted:
                take(it, *self.judge(it))


class Level:
    """The first level, as far as `Again` asks it."""

    def __init__(self, given, known, options):
        images = images_of(given, flushes_of(given))
        self.given, self.known, self.options = given, known, options
        self.searched = Searched(searches_of(images, asked_of(given), cuts_of(given, images.entries)), known)

    def text(self):
        return None, None, []


class Unkept:
    """In place of the file of records of the second level: it keeps nothing."""

    def take(self, *_words):
        """Takes what is handed over."""

    add = add_log = write = take


def text_of(run, program, losses, room):
    """Returns the status, the text and the notes of the script, and how often the program was run."""
    given = words_of(run, losses, room)
    given.again = True
    Path(room, "log").write_bytes(log(run.recorded))
    known = Known(images_of(given), head_text(known_model.inputs_of(run), "acts", "1").splitlines())
    for it in known.head:
        known.read(it)
    step, judged = Level(given, known, head(run, [], losses).rstrip("\n")), Judged(known, program)

    def take(image, verdict, looked, noted):
        record = Record(known.count, verdict, looked)
        record.log = noted
        known.add(record, known.images.image(image.cut, image.choice.decode()), image.marks)

    judged.rounds(step.searched, take)
    again = Again(step, Unkept())
    judged.rounds(again, lambda image, verdict, looked, noted: again.add(image, verdict, known_model.ranges(looked), noted))
    return *again.text(), judged.runs


def differs(run, program, losses, room):
    """Returns what the script has otherwise than the model, or a case otherwise than a run, how often the program was run for it, and how many
    choices were made."""
    wanted = again_model.again(run, program, "outside acts\nsum 1", losses)
    status, text, _notes, runs = text_of(run, program, losses, room)
    if (status, text.decode()) != (again_model.status(wanted), wanted):
        return f"the text is, with status {status},\n{text.decode()}and has to be, with {again_model.status(wanted)},\n{wanted}", runs, 0
    said, count = again_model.differs(run, program, losses)
    return said, runs, count


def main():
    parser = argparse.ArgumentParser(description="Compares crashbpf-each --again with a model and with all choices.")
    parser.add_argument("--runs", type=int, default=200)
    parser.add_argument("--seed", type=int, default=1)
    parser.add_argument("--only", type=int)
    given = parser.parse_args()
    failed = total = runs = 0
    numbers = range(given.runs) if given.only is None else [given.only]
    for number in numbers:
        chance = random.Random(f"{given.seed} {number}")
        run = some_run(chance)
        losses = Losses(
            torn=chance.choice([None, 2]) if run.tears else None,
            most=chance.choice([None, None, None, 1, 2]),
            at_failing=chance.random() < 0.1,
            cases=chance.choice([None, None, None, 1, 3]),
        )
        is_cut_off = losses.at_failing or losses.cases
        with tempfile.TemporaryDirectory() as room:
            said, ran, count = differs(run, some_program(chance, run.sectors), losses, room) if not is_cut_off else text_differs(run, chance, losses, room)
        runs, total, failed = runs + ran, total + count, failed + bool(said)
        if said:
            print(f"run {number}: {said}", flush=True)
    print(f"{runs} runs of programs tell {total} choices\n{len(numbers) - failed} passed, {failed} failed")
    return 1 if failed else 0


def text_differs(run, chance, losses, room):
    """Compares the text alone, where the search of a cut ends early."""
    program = some_program(chance, run.sectors)
    wanted = again_model.again(run, program, "outside acts\nsum 1", losses)
    status, text, _notes, runs = text_of(run, program, losses, room)
    is_right = (status, text.decode()) == (again_model.status(wanted), wanted)
    return None if is_right else f"the text is, with status {status},\n{text.decode()}and has to be\n{wanted}", runs, 0


if __name__ == "__main__":
    sys.exit(main())
