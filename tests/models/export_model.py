#!/usr/bin/env python3
"""The text of `export` once more, in the plainest form, and a reader of it.

Written from docs/OUTPUT.md, 'The text of `export`', over the images of model.py, and from nothing of the program under test.
Each image is made whole and compared with all before it.

    python3 tests/models/export_model.py

makes the text of all images of small random logs, and of a range of them, and holds what the reader has of each line against the
image. It prints `N passed, M failed`, and needs no program.
"""
import random
import struct
import sys

import rooms

rooms.enter()

from model import Run, number_of_report
from notation import FLUSH, FUA, SECTOR, random_entry

# A record: the number of a sector, and its bytes.
NUMBER = 8
RECORD = NUMBER + SECTOR


def sectors_of(content):
    """The sectors of a device."""
    return [content[at : at + SECTOR] for at in range(0, len(content), SECTOR)]


def records(old, new):
    """The sectors in which a device differs from another, rising, each with its number."""
    pairs = zip(sectors_of(old), sectors_of(new))
    return [struct.pack("<Q", number) + there for number, (here, there) in enumerate(pairs) if here != there]


def initial(run):
    """What the device held before entry 0."""
    return run.base.ljust(SECTOR * run.sectors, b"\0")


def exported(run, first=0, last=None):
    """The text of the images from `first` to before `last`."""
    return exported_images(run, list(run.images())[first:last])


def exported_images(run, images, inputs=None):
    """The text of these images, by the number of the inputs where another one than that of a report is told."""
    shown, told, text = initial(run), [], f"inputs {number_of_report(run) if inputs is None else inputs}\n".encode()
    for image in images:
        content, marks = image.content(), image.marks()
        text += f"image {image.number} cut {image.cut} epoch {image.epoch()} marks {marks} choice {image.choice()}".encode()
        same = next((number for number, *other in told if other == [content, marks]), None)
        if same is None:
            found = records(shown, content)
            text += f" new {len(found)}\n".encode() + b"".join(found)
            shown = content
            told.append((image.number, content, marks))
        else:
            text += f" same {same}\n".encode()
    return text + f"total {len(images)} new {len(told)}\n".encode()


def patched(device, found):
    """A device with these records written to it."""
    changed = bytearray(device)
    for at in range(0, len(found), RECORD):
        (number,) = struct.unpack_from("<Q", found, at)
        changed[SECTOR * number : SECTOR * (number + 1)] = found[at + NUMBER : at + RECORD]
    return bytes(changed)


def read(text, device):
    """What who reads the text has at each line: the words of the line, and the image. `device` is what the device held before
    entry 0. The last has the words of the last line, and no image."""
    seen, at = {}, 0
    while at < len(text):
        end = text.index(b"\n", at)
        words = text[at:end].decode().split(" ")
        at = end + 1
        if words[0] == "inputs":
            continue
        if words[0] == "total":
            yield words, None
            continue
        if words[-2] == "new":
            size = RECORD * int(words[-1])
            device = seen[words[1]] = patched(device, text[at : at + size])
            at += size
        yield words, device if words[-2] == "new" else seen[words[-1]]


def faults(run, text, first=0, last=None):
    """Where what a reader has isn't the image, or a word of a line is wrong."""
    images = list(run.images())[first:last]
    *lines, (total, _none) = read(text, initial(run))
    found = [] if len(lines) == len(images) else ["lines"]
    for image, (words, content) in zip(images, lines):
        wanted = [image.number, "cut", image.cut, "epoch", image.epoch(), "marks", image.marks(), "choice", image.choice()]
        if words[:10] != ["image", *map(str, wanted)]:
            found.append(f"words of image {image.number}")
        if content != image.content():
            found.append(f"bytes of image {image.number}")
    new = sum(words[-2] == "new" for words, _content in lines)
    return found if total == ["total", str(len(images)), "new", str(new)] else [*found, "total"]


def some_entry(chance, sectors):
    """Any entry of a device with that number of sectors. Few bytes come up, so that many images are the same."""
    odds, flags = (0.15, 0.3, 0.4), ((0.1, FLUSH), (0.2, FUA))
    return random_entry(chance, sectors, odds, [0, 1, 1, 2, 3], flags, lambda: bytes([chance.choice([0, 1, 1, 2])]) * SECTOR, b"commit")


def some_run(chance, most=7):
    """A run of a random log with random options."""
    sectors = chance.randint(1, 4)
    entries = [some_entry(chance, sectors) for _ in range(chance.randint(0, most))]
    cut = chance.randrange(len(entries) + 1)
    flush = tuple({chance.randrange(len(entries)) for _ in range(chance.choice([0, 0, 1]))} if entries else ())
    first, last = chance.choice([(None, None), (None, None), (cut, None), (None, cut)])
    base = chance.choice([b"", b"", b"\1" * SECTOR, bytes([2]) * (SECTOR * sectors - chance.randrange(SECTOR))])
    cuts, by = chance.choice(["all", "all", "flush", "mark"]), chance.choice(["sector", "write"])
    return Run(entries, sectors, cuts, chance.randint(0, 2), chance.random() < 0.3, by, flush, first, last, base)


def some_range(chance, count):
    """Two numbers of which the second isn't before the first, and at most `count`."""
    return tuple(sorted(chance.randint(0, count) for _ in range(2)))


def is_right(run, first, last):
    """Whether a reader of the model's text has each image, and each line that tells no new image names the first of its kind."""
    text = exported(run, first, last)
    return not faults(run, text, first, last)


def main():
    chance = random.Random(1)
    passed = failed = 0
    while passed + failed < 400:
        run = some_run(chance)
        count = sum(1 for _image in run.images())
        if count > 600:
            continue
        good = is_right(run, 0, None) and is_right(run, *some_range(chance, count))
        passed += good
        failed += not good
    print(f"{passed} passed, {failed} failed")
    return 1 if failed else 0


if __name__ == "__main__":
    sys.exit(main())
