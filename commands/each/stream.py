"""The text of `crashbpf export`: of which log and options it is, a line for each image, and of each new one what it changes on the device.

    inputs 15231894031046571253
    ..
    image 13 cut 4 epoch 0 marks 1 choice 2.0:drop new 3
    (three records: a sector's number, 8 bytes with the lowest first, and its 512 bytes)
    image 14 cut 4 epoch 0 marks 1 choice 2.1:drop same 13
    total 15 new 14

The records of a new image say what differs from the new image before it, those of the first from what the device held. `same`
names the first image with the same bytes and as many marks.
"""
import re
from typing import NamedTuple

from commands.shared.faults import Refusal

SECTOR = 512
RECORD = 8 + SECTOR
LONGEST = 4096
N = rb"(0|[1-9]\d*)"
HEAD = re.compile(rb"inputs %s\n" % N)
LINE = re.compile(rb"image %s cut %s epoch %s marks %s choice ([!-~]+) (new|same) %s\n" % ((N,) * 5))
LAST = re.compile(rb"total %s new %s\n" % (N, N))


class Image(NamedTuple):
    """An image: of a new one the records, and of any other the number of the new one that it equals."""

    number: int
    cut: int
    marks: int
    choice: bytes
    records: bytes | None
    same: int | None


def cut_off(number):
    return Refusal(f"what crashbpf export printed is cut off, or isn't its text, at image {number}")


def records_of(file, count, sectors, number):
    """Returns the records of a new image, as they stand there. Their sectors are rising, and of the device."""
    found = file.read(RECORD * count) if count <= sectors else b""
    if len(found) != RECORD * count:
        raise cut_off(number)
    numbers = [int.from_bytes(found[at : at + 8], "little") for at in range(0, len(found), RECORD)]
    if any(below >= at for below, at in zip(numbers, numbers[1:])) or numbers[-1:] >= [sectors]:
        raise cut_off(number)
    return found


def inputs(file):
    """Returns the number that says of which log and options an export is: its first line has it, as digits."""
    found = HEAD.fullmatch(file.readline(LONGEST))
    if found is None:
        raise cut_off(0)
    return found[1].decode()


def images(file, sectors, total=None, start=0):
    """Yields the images of an export after its first line, from the image `start` on, and after them tests its last line, which has to count all
    that were there. `total` is how many there have to be, where that is known."""
    number, marks_of = start, {}
    while True:
        line = file.readline(LONGEST)
        it = LINE.fullmatch(line)
        if it is None:
            break
        marks, fresh, value = int(it[4]), it[6] == b"new", int(it[7])
        if int(it[1]) != number or not fresh and marks_of.get(value) != marks:
            raise cut_off(number)
        records = records_of(file, value, sectors, number) if fresh else None
        if fresh:
            marks_of[number] = marks
        yield Image(number, int(it[2]), marks, it[5], records, None if fresh else value)
        number += 1
    last = LAST.fullmatch(line)
    if not last or (int(last[1]), int(last[2])) != (number - start, len(marks_of)) or total not in (None, number - start) or file.read(1):
        raise cut_off(number)
