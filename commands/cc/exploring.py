"""What a program answers on many images: `crashbpf explore` judges those of one size as cuts of a log, so that it is verified once.

The first of them is what the device held before the log. Each other one is reached by writes of the sectors in which it differs from the
one before. The marks and flushes that the program is to be told of stand at the begin.
"""
import os
import re
import struct
from pathlib import Path

from commands.cc.mutants import SECTOR
from commands.cc.work import NotRun
from commands.record.trace_log import MAGIC, header

FLUSH, MARK = 1, 8
# A log may have 65,536 entries and 64 MiB. No image is added after these numbers of entries, and of bytes of data.
MOST_ENTRIES, MOST_BYTES = 45000, 32 << 20
LINE = re.compile(r"^image \d+ cut (\d+) program 0 (.*) choice ", re.M)
SLOT = re.compile(r"stray at slot (\d+)")


class Log:
    """A log that begins with marks and flushes; and its images, by their numbers, with the cuts at which they stand."""

    def __init__(self, base, marks, epoch):
        self.base = self.last = base
        self.entries = [header(0, 0, MARK)] * marks + [header(0, 0, FLUSH)] * epoch
        self.first, self.cuts, self.bytes = len(self.entries), {}, 0

    def count(self):
        """How many images a run has: one for each cut from the first on."""
        return len(self.entries) - self.first + 1

    def add(self, number, image):
        """Lets the device become an image."""
        others = [at for at in range(0, len(image), SECTOR) if image[at : at + SECTOR] != self.last[at : at + SECTOR]]
        while others:
            first, end = others[0], others[0]
            while others and others[0] == end:
                end = others.pop(0) + SECTOR
            self.entries.append(header(first // SECTOR, (end - first) // SECTOR, 0) + image[first:end])
            self.bytes += end - first
        self.cuts[number] = len(self.entries)
        self.last = image

    def is_full(self):
        return len(self.entries) > MOST_ENTRIES or self.bytes > MOST_BYTES

    def content(self):
        return struct.pack("<QQQI", MAGIC, 1, len(self.entries), SECTOR).ljust(SECTOR, b"\0") + b"".join(self.entries)


class Program:
    """A program that judges images: its file, the lines of its slots, and what `crashbpf` and it are told."""

    def __init__(self, path, built, asked, work):
        self.path, self.lines, self.asked, self.work = path, built.lines, asked, work
        self.options = ["--guards"] * (built.guarded is not None) + ["--large"] * asked.large

    def ends(self, images):
        """Returns how it ends on each of these images."""
        found, logs = {}, {}
        for number, image in enumerate(images):
            log = logs.get(len(image))
            if log is None or log.is_full():
                found.update(self.judged(log) if log else ())
                log = logs[len(image)] = Log(image, self.asked.marks, self.asked.epoch)
            log.add(number, image)
        for log in logs.values():
            found.update(self.judged(log))
        return [found[it] for it in range(len(images))]

    def judged(self, log):
        """Yields the number of each image of a log, and how the program ends on it."""
        path, base = (os.path.join(self.work.folder, it) for it in ("explored.log", "explored.base"))
        Path(path).write_bytes(log.content())
        Path(base).write_bytes(log.base)
        words = ["--sectors", "base", "--base", base, "--bound", "0", "--from", log.first]
        done = self.work.run(["crashbpf", "explore", path, self.path, *words, *self.options], seconds=self.asked.timeout * (1 + len(log.cuts)))
        if done.returncode not in (0, 1):
            raise NotRun(f"crashbpf explore came to no report: {(done.stderr or str(done.returncode)).strip()[:400]}")
        if f"\nimages {log.count()} " not in done.stdout:
            raise NotRun("crashbpf explore judged other images than those of the log")
        ends = dict(LINE.findall(done.stdout))
        for number, cut in log.cuts.items():
            yield number, self.placed(ends.get(str(cut), "answer 0"))

    def placed(self, end):
        """An end with its line of C, where that is known."""
        slot = SLOT.match(end)
        place = self.lines.get(int(slot[1])) if slot else None
        return f"{end} ({Path(place[0]).name}:{place[1]})" if place else end
