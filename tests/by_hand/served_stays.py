#!/usr/bin/env python3
"""Times a program that stays beside the same that is started for each image. By hand.

    python3 tests/by_hand/served_stays.py [-j N] [--turns N] [--losses N]

What examples/recovery/lmdb_write.py writes with its word nosync is recorded. All its images that lack at most N writes, 2 where that isn't
given, are judged as crashbpf-each judges a round: by examples/recovery/lmdb_check.py, and with --stay by lmdb_stay.py. The search for images
isn't in it. Both ways are gone by turns, and each 16th image is run again in both. Prints for each way the images a second, of the best turn,
and the milliseconds of the processor for an image, those of the server and of all programs with them; and how many times as many images a
second the one that stays judges, by the clock and by the processor. Where the machine does other work beside only the processor's times say
something. It wants python3-lmdb, strace and FUSE.
"""
import argparse
import itertools
import os
import subprocess
import sys
import tempfile
import time
from pathlib import Path

sys.dont_write_bytecode = True

import rooms

rooms.enter()

from commands.each.known import Known
from commands.each.records import Records
from commands.each.rounds import served_rounds
from commands.each.served_log import LogImages, text_of
from commands.each.stream import Image
from commands.each.words import parse
from commands.shared import recording
from notation import TOP

RECOVERY, RECORDER = TOP / "examples/recovery", TOP / "commands/record/crashbpf-record"
WAYS = {"started": [[], [RECOVERY / "lmdb_check.py", "{}"]], "stays": [["--stay"], [RECOVERY / "lmdb_stay.py"]]}


def images_of(images, losses):
    """Each image of a log that lacks at most so many writes, but for those with the bytes and the marks of an earlier one."""
    found, seen = [], set()
    for cut in range(len(images.entries) + 1):
        for lost in itertools.chain(*(itertools.combinations(images.at_risk(cut), it) for it in range(losses + 1))):
            choice = text_of(dict.fromkeys(lost, "drop"))
            image = images.image(cut, choice)
            content = images.marks[cut], b"".join(map(image.sector, range(images.sectors)))
            if content not in seen:
                seen.add(content)
                found.append(Image(len(found), cut, images.marks[cut], choice.encode(), None, None))
    return found


class Step:
    """A step that wants some images once, and of which no record tells another."""

    def __init__(self, given, wanted):
        self.given, self.left = given, [wanted, []]

    def wanted(self):
        return self.left.pop(0)

    def is_told(self, _image):
        return False


def judged(it, runners, way, wanted, room):
    """Judges images one way. Returns the seconds by the clock and of the processor."""
    options, program = WAYS[way]
    words = ["-j", str(runners), *options, it.log(), "--sectors", str(it.sectors), "--by", "write", "--bound", "any", "--", *map(str, program)]
    given = parse(words)
    known = Known(LogImages(it.log(), None, it.sectors, True), ["no head"])
    path = Path(room, "known")
    records = Records(path, known, False)
    begun, before = time.monotonic(), sum(os.times()[:4])
    with tempfile.TemporaryDirectory(prefix="crashbpf-each-", dir=room) as folder:
        with served_rounds(given, records, [b""] * known.images.marks[-1], folder) as rounds:
            rounds.go(Step(given, wanted))
    seconds = time.monotonic() - begun, sum(os.times()[:4]) - before
    lines = [it.rpartition(" looked ")[0] for it in path.read_text().splitlines()]
    records.end(False)
    return seconds, rounds, sorted(lines)


def main():
    parser = argparse.ArgumentParser(description="Times a program that stays.")
    parser.add_argument("-j", type=int, default=len(os.sched_getaffinity(0)))
    parser.add_argument("--turns", type=int, default=3)
    parser.add_argument("--losses", type=int, default=2)
    given = parser.parse_args()
    with tempfile.TemporaryDirectory() as room:
        subprocess.run([RECORDER, "it", "--", RECOVERY / "lmdb_write.py", "nosync"], cwd=room, check=True, capture_output=True)
        it = recording.read(f"{room}/it")
        wanted = images_of(LogImages(it.log(), None, it.sectors, True), given.losses)
        times, said = {way: [] for way in WAYS}, []
        for _ in range(given.turns):
            for way in WAYS:
                seconds, rounds, lines = judged(it, given.j, way, wanted, room)
                times[way].append(seconds)
                said.append(lines)
    best = {way: [min(it) for it in zip(*some)] for way, some in times.items()}
    for way, (clock, processor) in best.items():
        print(f"{way}: {len(wanted) / clock:.0f} images a second, {1000 * processor / len(wanted):.2f} ms of the processor for each")
    one, other = best["started"], best["stays"]
    is_same = all(it == said[0] for it in said)
    print(f"{len(wanted)} images, {given.j} runners, the verdicts are {'the same' if is_same else 'OTHERS'}: {one[0] / other[0]:.1f} times as many a second, {one[1] / other[1]:.1f} by the processor")
    return 0 if is_same else 1


if __name__ == "__main__":
    sys.exit(main())
