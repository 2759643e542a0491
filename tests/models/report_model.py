"""A report that is given in place of programs, in the plainest form, written from docs/OUTPUT.md: when a text is the report of a run, at
which line it shows where it isn't, and what `why` and `cure` tell of it."""
import re
from dataclasses import dataclass
from itertools import takewhile

from model import head, missing_flushes, number_of_report, window_of
from why_model import Failing, cut_text

NUMBER = "(0|[1-9][0-9]*)"
CHECKER = re.compile(f"program {NUMBER} slots {NUMBER} (budget|limit) {NUMBER}( guards {NUMBER})?")
OWN = re.compile("program 0 outside [ -~]+")
INPUTS = re.compile(f"inputs {NUMBER} programs ([1-8])")
LINE = re.compile(f"image {NUMBER} cut {NUMBER} program {NUMBER} (.*) choice (.*)")
VERDICT = re.compile(f"answer {NUMBER} codes (-|{NUMBER}(,{NUMBER}){{0,15}})")
FAULT = re.compile(f"fault (8[0-8]) slot {NUMBER}")
STRAY = re.compile(f"stray at slot {NUMBER}")
STATUS = re.compile(f"answer {NUMBER} codes -")
SIGNAL = re.compile(f"signal {NUMBER}")


class Fault(Exception):
    """A text is no report of the run, which shows at that line."""


@dataclass
class Line:
    image: object
    program: int
    outcome: str
    text: str


@dataclass
class Report:
    head: str
    programs: int
    lines: list
    last: str


def is_small(*words):
    return all(int(it) < 2**64 for it in words)


def is_checker(number, line):
    """Says whether a line is one of a report's head, of the program with this number."""
    it = CHECKER.fullmatch(line)
    if not it or int(it[1]) != number:
        return False
    slots, limit, guards = int(it[2]), int(it[4]), it[6]
    return 1 <= slots <= 4096 and limit <= 10**9 and (guards is None or (int(guards) <= slots and it[3] == "budget"))


def is_outcome(outside, text):
    """Whether that is what a program of the report may end in: one that is given images as files, or a checker."""
    if outside:
        status, signal = STATUS.fullmatch(text), SIGNAL.fullmatch(text)
        return text == "out of time" or bool(status and 1 <= int(status[1]) < 256) or bool(signal and 1 <= int(signal[1]) < 128)
    verdict, fault, stray = VERDICT.fullmatch(text), FAULT.fullmatch(text), STRAY.fullmatch(text)
    if verdict:
        return int(verdict[1]) != 0 and is_small(verdict[1], *([] if verdict[2] == "-" else verdict[2].split(",")))
    return text == "out of steps" or bool(fault and is_small(fault[2])) or bool(stray and is_small(stray[1]))


def programs_of(lines):
    """How many programs these lines begin with, none where one of their lines is wrong, and whether it is one that is given images as files."""
    if lines and lines[0].startswith("program 0 outside "):
        return (1, True) if OWN.fullmatch(lines[0]) else (0, True)
    told = list(takewhile(lambda line: line.startswith("program "), lines))[:8]
    return (len(told) if all(is_checker(number, line) for number, line in enumerate(told)) else 0), False


def line_of(images, programs, outside, text):
    """What a line says, or none where it is none of the run."""
    it = LINE.fullmatch(text)
    if not it or int(it[1]) >= len(images) or int(it[3]) >= programs or not is_outcome(outside, it[4]):
        return None
    image = images[int(it[1])]
    return Line(image, int(it[3]), it[4], text) if int(it[2]) == image.cut and it[5] == image.choice() else None


def read(run, data):
    """What a report of the run says."""
    images = list(run.images())
    try:
        data.decode()
    except UnicodeDecodeError:
        raise Fault(1 + data[:next(at for at, byte in enumerate(data) if byte > 127)].count(b"\n")) from None
    text = data.decode("ascii", "replace").replace("\r", "\ufffd")
    whole = text.split("\n")
    ended = whole[:-1]
    options = head(run, [], False)
    if not ended or ended[0] != "crash report 2":
        raise Fault(1)
    says = len(ended) > 1 and INPUTS.fullmatch(ended[1])
    says = says if says and int(says[1]) == number_of_report(run) else None
    begun = 2 if says else 1
    if len(ended) < begun + 1 or ended[begun] + "\n" != options:
        raise Fault(begun + 1)
    begun += 1
    programs, outside = programs_of(ended[begun:])
    if programs == 0:
        raise Fault(begun + 1)
    at, lines, last = begun + programs, [], (-1, -1)
    while at < len(ended) and (line := line_of(images, programs, outside, ended[at])):
        if (line.image.number, line.program) <= last:
            raise Fault(at + 1)
        lines, last, at = [*lines, line], (line.image.number, line.program), at + 1
    totals = f"images {len(images)} failing {len({it.image.number for it in lines})} lines {len(lines)}\n"
    if "\n".join(whole[at:]) != totals:
        raise Fault(at + 1)
    if says and int(says[2]) != programs:
        raise Fault(begun + programs + 1)
    return Report(options + "".join(f"{it}\n" for it in ended[begun : begun + programs]), programs, lines, totals)


def flushes_of(report):
    """Of each program how many of its failing images have no window, and the flushes that are missing."""
    windows = [(it.program, window_of(it.image)) for it in report.lines]
    text = ""
    for number in range(report.programs):
        own = [window for program, window in windows if program == number]
        text += f"program {number} failing {len(own)} uncured {own.count(None)}\n"
    return text, windows, missing_flushes([window for _program, window in windows if window is not None])


def causes(run, report):
    """What `why --report` prints."""
    programs, _windows, missing = flushes_of(report)
    text = "crash why 2\n" + report.head + report.last + programs
    text += "".join(f"flush before {place} from {first} failing {count}\n" for place, first, count in missing)
    for number in range(report.programs):
        own = [Failing(it.image, it.outcome) for it in report.lines if it.program == number]
        for cut in sorted({it.image.cut for it in own}):
            text += cut_text(run, cut, number, [it for it in own if it.image.cut == cut])
    return text


def places(run, report):
    """What `cure --report` prints."""
    programs, windows, missing = flushes_of(report)
    text = "crash cure 1\n" + report.head + programs
    uncured = [line.text for line, (_program, window) in zip(report.lines, windows) if window is None]
    text += f"no flush cures {uncured[0]}\n" if uncured else ""
    text += "".join(f"round 1 flush before {place} from {first} failing {count}\n" for place, first, count in missing)
    if not missing:
        return text + report.last
    flushes = [*run.flush, *[place for place, _first, _count in missing]]
    if len(flushes) > 64:
        return text + f"untried {len(flushes)} flushes, more than --flush takes\n"
    return text + "untried --flush " + ",".join(str(it) for it in flushes) + "\n"
