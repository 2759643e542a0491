"""The records of a run with any number of losses: how the program ended on an image, and at which sectors it looked there.

They are the state of the run, and `--resume` goes on with them, where the program and each file that its words name have the bytes that
they had (docs/OUTPUT.md, 'Records of a program of yours').
"""
import hashlib
import os
import shutil

from commands.each.known import TITLE
from commands.each.report import told
from commands.each.state import Journal, sum_of_file
from commands.shared.faults import Refusal
from commands.shared.verdicts import EXIT


def ranges(sectors):
    """Returns sectors in the order of their first looks, as a record has them."""
    found = []
    for it in sectors:
        if found and found[-1][1] + 1 == it:
            found[-1][1] = it
        else:
            found.append([it, it])
    return ",".join(f"{first}-{last}" if first < last else f"{first}" for first, last in found) or "-"


def sum_of_program(given):
    """Returns the sum of all on which a verdict hangs beside the image: of the time that a program has and how it is run, and of the bytes
    of the program and of each file that a word names."""
    recover = "" if given.recover is None else f" recover {given.recover}"
    total = hashlib.sha256(f"seconds {given.seconds}{' stay' if given.stay else ''}{' again' if given.again else ''}{recover}\n".encode(errors="surrogateescape"))
    for place, word in enumerate(given.program):
        path = shutil.which(word) if place == 0 else word
        if path is not None and os.path.isfile(path):
            total.update(f"{place} {sum_of_file(path)}\n".encode())
    return total.hexdigest()


def record(image, verdict, looked):
    """Returns the line of a record."""
    ending = f"answer {verdict.number}" if verdict.kind == EXIT else verdict.text()
    return f"ran cut {image.cut} choice {image.choice.decode()} marks {image.marks} {ending} looked {looked}"


def head_of(inputs, given):
    """Returns the lines that stand before the records of a run."""
    return [TITLE, f"inputs {inputs}", f"program 0 outside {told(given.program)}", f"sum {sum_of_program(given)}"]


class Records(Journal):
    """The file of the records of a run. What is written is read as what is found there is, so it is tested alike."""

    def __init__(self, path, known, resume):
        super().__init__(path, resume)
        self.known = known
        if resume:
            self.go_on()
        else:
            for it in known.head:
                self.take(it)

    def go_on(self):
        """Takes up the records of the file, which has to be of this log and this program."""
        lines, size = self.whole_lines()
        try:
            for it in lines:
                self.known.read(it)
            self.known.test_begun()
        except Refusal as fault:
            raise Refusal(f"{self.path} isn't gone on with: {fault}") from None
        self.append_at(size)

    def take(self, line):
        self.write(f"{line}\n")
        return self.known.read(line)

    def add(self, image, verdict, looked, log):
        """Adds the record of an image, and keeps what the program did to it where that was noted."""
        self.take(record(image, verdict, looked)).log = log

    def end(self, is_kept):
        """Closes the file, and takes it away unless it is kept or the run wasn't done."""
        if not is_kept:
            os.unlink(self.path)
        os.close(self.file)
