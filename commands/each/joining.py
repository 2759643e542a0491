"""Parts of a run with a bound, joined by `crashbpf join` (docs/OUTPUT.md, 'The text of a part').

That takes parts of checkers. So each text is written anew as one of a checker: a run that strays at slot S stands for signal S, a spent
limit for a program that took too long, and the limit of the program's line for the words of the program. What comes out is written back.
What is no part of a program of yours becomes an empty text, which `join` refuses in its order.
"""
import os
import re
import shutil
import sys
import tempfile

from commands.each import product
from commands.each.report import TITLE
from commands.shared.faults import Refusal

SPAN = re.compile(rb"part \d+\.\.\d+ of \d+ inputs (\d+)")
PROGRAM = re.compile(rb"program 0 outside [ -~]+")
LINE = re.compile(rb"(image \d+ cut \d+ program 0 )(?:answer (\d{1,3}) codes -|signal (\d{1,3})|out of time)( choice [!-~]+)")
# What stands for how a program of yours ended.
AS = {b"signal ": b"stray at slot ", b"out of time": b"out of steps"}
BACK = re.compile(rb"(?m)^(image \d+ cut \d+ program 0 )(stray at slot |out of steps)")
MOST_PARTS, MOST_BYTES = 4096, 1 << 30
# How many lines stand before the failing ones.
HEAD = 4
REFUSED = re.compile(r"refused (6[1-4]) at (\d+)")
# What is said of the file at which `join` refuses by a number.
WHY = {
    "61": "isn't the text of a part, as crashbpf-each --part prints it",
    "62": "is a part of another run than the first file: the log, an option or a word of the program is another",
    "63": "has the first images after some that are missing",
    "64": "has images that the part before it has too",
}


def of_checker(line):
    """Returns a failing line as that of a checker, or None where it is no line of a program of yours."""
    it = LINE.fullmatch(line)
    if not it or it[2] and not 1 <= int(it[2]) <= 255 or it[3] and not 1 <= int(it[3]) <= 127:
        return None
    return next((line.replace(name, named) for name, named in AS.items() if it[0].startswith(it[1] + name)), line)


class Part:
    """A text of a part: the number of its inputs, the line of its program, and its lines as those of a checker, None where it is no part."""

    def __init__(self, text):
        *lines, end = text.split(b"\n")
        span = SPAN.fullmatch(lines[1]) if len(lines) > HEAD and lines[0] == b"crash part 1" and not end else None
        self.lines = None
        if span and PROGRAM.fullmatch(lines[3]):
            failing = [of_checker(it) for it in lines[HEAD:-1]]
            self.inputs, self.program = span[1], lines[3]
            self.lines = None if None in failing else [lines[:3], failing, lines[-1]]

    def text(self, limit):
        """Returns the text of the part as that of a checker with this limit."""
        if self.lines is None:
            return b""
        head, failing, last = self.lines
        return b"".join(it + b"\n" for it in [*head, b"program 0 slots 1 limit %d" % limit, *failing, last])


def read(path, left):
    """Returns the bytes of a file, and refuses one that has more than `left`."""
    with open(path, "rb", opener=lambda name, flags: os.open(name, flags | os.O_NONBLOCK)) as file:
        content = file.read(left + 1)
    if len(content) > left:
        raise Refusal(f"with {path} the parts have more than {MOST_BYTES} bytes")
    return content


def written(paths, folder):
    """Writes the parts anew into a folder, and returns the first of them and the paths there."""
    first, programs, found, left = None, [], [], MOST_BYTES
    for number, path in enumerate(paths):
        content = read(path, left)
        left -= len(content)
        part = Part(content)
        if part.lines and part.program not in programs:
            programs.append(part.program)
        found.append(os.path.join(folder, f"{number:04}.part"))
        with open(found[-1], "wb") as file:
            file.write(part.text(programs.index(part.program) if part.lines else 0))
        first = first or part
    return first, found


def told_back(text, part):
    """Returns a report of a checker as that of the program of a part."""
    title, options, _program, rest = text.split(b"\n", 3)
    said = b"" if b" first yes" in options else b"inputs %s programs 1\n" % part.inputs
    names = {named: name for name, named in AS.items()}
    return TITLE.encode() + said + options + b"\n" + part.program + b"\n" + BACK.sub(lambda it: it[1] + names[it[2]], rest)


def joined(paths):
    """Prints the report of the run of which these files are all parts. Returns the exit status."""
    if not 1 <= len(paths) <= MOST_PARTS:
        raise Refusal(f"--join takes 1 to {MOST_PARTS} parts")
    folder = tempfile.mkdtemp(prefix="crashbpf-each-")
    try:
        first, found = written(paths, folder)
        status, printed, said = product.asked(product.found(), ["join", *found])
        if status not in (0, 1):
            raise Refusal(refusal(product.first_line(said), paths))
        sys.stdout.buffer.write(told_back(printed, first))
        sys.stdout.buffer.flush()
        return status
    finally:
        shutil.rmtree(folder, ignore_errors=True)


def refusal(line, paths):
    """Returns what is said where `join` refuses parts with this line, with the name of the file."""
    it = REFUSED.fullmatch(line)
    if not it:
        return line
    name = paths[int(it[2])] if int(it[2]) < len(paths) else "a file after all these"
    return f"{line}: {name} {WHY[it[1]]}"
