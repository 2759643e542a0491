"""Lines of C: what such a text says, and the text of `check` with their places, written from docs/CHECKERS.md, 'CHECK.lines', and
docs/OUTPUT.md, 'The text of `check`', alone."""
import re

MOST_BYTES, MOST_LINES = 1 << 20, 1 << 16
NUMBER = rb"[1-9][0-9]{0,9}"
LINE = re.compile(rb"(0|%b) ([!-~]+) (%b)" % (NUMBER, NUMBER))
SLOT = re.compile(r"(?:step \d+ |fault \d+ |stray at )slot (\d+)\b")


def first_bad_line(content):
    """The number of the first line that says nothing, from 1 on; 0 where there is none, and where there are too many bytes."""
    if len(content) > MOST_BYTES:
        return 0
    *lines, rest = content.split(b"\n")
    bad = [number for number, line in enumerate(lines, 1) if not LINE.fullmatch(line)]
    return bad[0] if bad else len(lines) + 1 if rest else 0


def table_of(content):
    """The place of each slot by a text of lines of C, the first where it has more; None where it is no such text."""
    lines = content.split(b"\n")[:-1]
    if first_bad_line(content) or len(content) > MOST_BYTES or len(lines) > MOST_LINES:
        return None
    said = [LINE.fullmatch(it).groups() for it in lines]
    return {int(slot): f"{file.decode()}:{number.decode()}" for slot, file, number in reversed(said)}


def placed(text, table):
    """The text of `check` with the place of each slot that it names, where the table has it."""
    def with_place(line):
        named = SLOT.match(line)
        place = table.get(int(named[1])) if named else None
        return f"{line} # {place}" if place else line

    return "".join(with_place(it) + "\n" for it in text.splitlines())
