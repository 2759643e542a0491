"""Runs in parts: the text of each part, what `join` makes of them in any order and in steps, every misuse of `join`, how a run is laid
out, and the images of runs that no process judges alone. All is compared with the model (parts_model.py)."""
# Seen to fail for planted bugs of the line of progress: the last image in place of their number, a number that isn't set back.
from dataclasses import replace
from functools import cache
from math import comb

from designs import DESIGNS, EXAMPLES, checker_of
from model import Checker, Run, one, shown, zero
from notation import D, F, FLUSH, FUA, SECTOR, Hole, Long, M, Row, S, Something, W, code, files, refused
from parts_model import (
    MOST_JOINED,
    MOST_JUDGED,
    MOST_PARTS,
    PART_LINE,
    WideRun,
    count,
    first_beyond,
    found,
    image_at,
    inputs_of,
    joined,
    layout,
    lines_at,
    part,
    report,
    shuffled,
    survey,
)

from rows.modelled import CHECKERS, LOGS, noise

# How many parts a run is laid out in.
PARTS = [1, 2, 7, 64]

# Runs of the logs: by sector and by write, with and without tears, and the first failing image alone.
WAYS = [(1, True, "sector", False), (2, False, "sector", True), (1, True, "write", True), (2, False, "write", False)]

# The programs `mov64 r0, 1; exit` and `mov64 r0, 0; exit` as bytes, of which the number of the inputs is known.
ONE = code("b7000000010000009500000000000000")
ZERO = code("b7000000000000009500000000000000")


def said(status, bytes_or_refusal):
    """What a row of `join` expects, as the model says it."""
    if status < 2:
        return dict(out=bytes_or_refusal, status=status)
    return dict(status=2, error="refused {} at {}".format(*bytes_or_refusal))


def row_of(name, texts, some=False):
    """A row of `join` of these texts, with `some` of `join --part`, which says what the model makes of them."""
    content = {f"t{number}": text for number, text in enumerate(texts)}
    return Row(name, f"join {'--part ' if some else ''}{' '.join(content)}", content, **said(*joined(texts, some)))


def encoded(texts):
    return [it if isinstance(it, bytes) else it.encode() for it in texts]


# Joins that are the whole


def runs():
    """Runs of the logs, by name; the last word says whether the first failing image alone is asked for."""
    for name, (sectors, entries) in LOGS.items():
        for bound, tears, by, first in WAYS:
            run = Run(entries, sectors, "all", bound, tears, by)
            if 0 < count(run) <= 300:
                yield f"{name} {run.options()}{' --first' if first else ''}", run, first


ALL = list(runs())


def texts(run, first, ranges):
    """The texts of these images of a run, by the number of inputs 5, which no join asks for."""
    return encoded(part(run, CHECKERS, start, end, 5, first) for start, end in ranges)


def fails(run, start, end):
    """Whether an image fails of those from `start` to below `end`."""
    return any(lines_at(run, tuple(CHECKERS), number) for number in range(start, end))


def whole(name, run, first, parts):
    """All parts of a run, in another order, are the report."""
    some = shuffled(name, layout(count(run), parts))
    content = {f"t{number}": Long(lambda it=it: texts(run, first, [it])[0]) for number, it in enumerate(some)}
    out = Long(lambda: report(run, CHECKERS, first))
    return Row(f"joined, {parts} parts: {name}", f"join {' '.join(content)}", content, out, 1 if fails(run, 0, count(run)) else 0)


def in_steps(name, run, first):
    """Parts in the midst of a run are a part, and this with the others is the report."""
    total = count(run)
    start, end = total // 4, total - total // 5
    middle = row_of(f"joined in the midst: {name}", texts(run, first, [((start + end) // 2, end), (start, (start + end) // 2)]), True)
    assert middle.out == part(run, CHECKERS, start, end, 5, first).encode(), name
    rest = texts(run, first, [(0, start), (end, total)])
    last = row_of(f"joined in steps: {name}", [rest[1], middle.out, rest[0]])
    assert last.out == report(run, CHECKERS, first).encode(), name
    return [middle, last, row_of(f"joined in steps, as a part too: {name}", [rest[1], middle.out, rest[0]], True)]


# A run without images has one part, which may come any number of times.
NO_IMAGES = Run([W(0, 1, 1)], 4, "mark")
NOTHING = texts(NO_IMAGES, False, [(0, 0)])[0]

# As many parts as are joined, of one image each but the last.
MANY = Run([W(0, 1, 0)] * 90, 4)
FEW = [Checker("slots 2 budget 2", lambda image: (image.number % 2, ()))]
STARTS = [*range(MOST_JOINED), count(MANY)]
SINGLE = encoded(part(MANY, FEW, *it, 5) for it in zip(STARTS, STARTS[1:]))

JOINS = [
    *(whole(name, run, first, parts) for name, run, first in ALL for parts in PARTS),
    *(row for name, run, first in ALL[::5] if count(run) >= 5 for row in in_steps(name, run, first)),
    row_of("joined: the part of no images", [NOTHING]),
    row_of("joined: the part of no images, three times", [NOTHING] * 3),
    row_of("joined: the part of no images, as a part too", [NOTHING], True),
    row_of("joined: one part alone, in the midst", texts(*ALL[0][1:], [(3, 5)]), True),
    row_of("joined: all parts but the last, as a part", texts(*ALL[0][1:], layout(count(ALL[0][1]), 5)[:-1]), True),
    row_of("joined: all parts but the first, as a part", texts(*ALL[0][1:], layout(count(ALL[0][1]), 5)[1:]), True),
    row_of("joined: as many parts as can be", shuffled("many", SINGLE)),
]


# Misuse of `join`

RUN = Run([W(0, 2, 0xAA), F, W(1, 1, 0xBB), M("x")], 4, "all", 2, True)
THIRDS = texts(RUN, False, layout(count(RUN), 3))
FIRSTS = texts(RUN, True, layout(count(RUN), 3))
WHOLE = texts(RUN, False, [(0, count(RUN))])[0]


def middle_of(run):
    return texts(run, False, layout(count(run), 3))[1]


def misused(name, parts, number, place, some=False):
    """A row of texts that aren't joined, with `some` by `join --part`. The model says the same."""
    row = row_of(f"not joined: {name}", encoded(parts), some)
    assert row.error == f"refused {number} at {place}", (name, row.error, row.status)
    return row


def changed(text, old, new, times=1):
    text, old, new = (it if isinstance(it, bytes) else it.encode() for it in (text, old, new))
    assert text.count(old) >= times and old != new, f"{old!r} doesn't stand in the text"
    return text.replace(old, new, times)


MIDDLE = THIRDS[1]
LINES = MIDDLE.decode().split("\n")
FAILING = [it for it in LINES if it.startswith("image ")]
BEFORE = next(it for it in THIRDS[0].decode().split("\n") if it.startswith("image "))
OPTIONS, LAST = LINES[2], LINES[-2]


def with_line(old, new):
    """The middle part with another line in place of one."""
    return changed(MIDDLE, f"\n{old}\n", f"\n{new}\n")


def with_words(line, old, new):
    assert old in line, (old, line)
    return with_line(line, line.replace(old, new, 1))


# The middle part with one thing changed, which leaves no text of a part.
BROKEN = {
    "empty": b"",
    "a newline alone": b"\n",
    "cut off": MIDDLE[:-1],
    "cut off within its last line": MIDDLE[:-4],
    "cut off before its last line": MIDDLE[: -len(LAST) - 1],
    "cut off within a line": MIDDLE[: MIDDLE.index(FAILING[2].encode()) + 9],
    "cut off within its head": MIDDLE[:40],
    "a byte before it": b" " + MIDDLE,
    "a byte after it": MIDDLE + b" ",
    "a line after it": MIDDLE + b"\n",
    "a text twice": MIDDLE * 2,
    "two texts in one": MIDDLE + THIRDS[2],
    "a whole report": report(RUN, CHECKERS),
    "of why": "crash why 2\n" + report(RUN, CHECKERS).split("\n", 1)[1],
    "with another first line": changed(MIDDLE, "crash part 1", "crash part 2"),
    "no text": b"\xff" + MIDDLE,
    "with a byte of 128 and more in its head": changed(MIDDLE, "sectors", b"sect\xf6rs"),
    "with a byte of 128 and more in a line": changed(MIDDLE, "choice", b"choic\xe9"),
    "with zeros": changed(MIDDLE, "cut", "c\0t"),
    "with the ends of lines of DOS": changed(MIDDLE, "\n", "\r\n", MIDDLE.count(b"\n")),
    "without its second line": changed(MIDDLE, LINES[1] + "\n", ""),
    "a zero before the first image": changed(MIDDLE, "part ", "part 0"),
    "a sign before the first image": changed(MIDDLE, "part ", "part +"),
    "of no images, of a run that has some": changed(MIDDLE, LINES[1], f"part 4..4 of {count(RUN)} inputs 5"),
    "of images that fall": changed(MIDDLE, LINES[1], f"part 9..4 of {count(RUN)} inputs 5"),
    "of images that there aren't": changed(MIDDLE, LINES[1], f"part 4..{count(RUN) + 1} of {count(RUN)} inputs 5"),
    "of 2^63 images": changed(MIDDLE, f"of {count(RUN)} ", f"of {2**63} "),
    "of inputs 2^64": changed(MIDDLE, "inputs 5", f"inputs {2**64}"),
    "of inputs that are no number": changed(MIDDLE, "inputs 5", "inputs x"),
    "without options": changed(MIDDLE, OPTIONS + "\n", ""),
    "with another option": with_words(OPTIONS, "bound", "bounds"),
    "with no kind of cuts": with_words(OPTIONS, "cuts all", "cuts some"),
    "with tears that are neither": with_words(OPTIONS, "tears yes", "tears maybe"),
    "with sectors that are no number": with_words(OPTIONS, "sectors 4", "sectors four"),
    "with sectors and a zero before": with_words(OPTIONS, "sectors 4", "sectors 04"),
    "with a blank after its options": with_line(OPTIONS, OPTIONS + " "),
    "with options in another order": with_words(OPTIONS, "tears yes first no", "first no tears yes"),
    "with flushes that are none": with_line(OPTIONS, OPTIONS + " flush "),
    "with flushes and a comma after": with_line(OPTIONS, OPTIONS + " flush 1,"),
    "with the first cut after the last": with_line(OPTIONS, OPTIONS + " to 3 from 2"),
    "of a program of yours": "\n".join([*LINES[:3], "program 0 outside ./check {}", f"images {LAST.split()[1]} failing 0 lines 0", ""]),
    "without programs": changed(MIDDLE, "".join(f"{it}\n" for it in LINES[3:6]), ""),
    "without its first program": changed(MIDDLE, LINES[3] + "\n", ""),
    "with programs in another order": changed(MIDDLE, f"{LINES[3]}\n{LINES[4]}\n", f"{LINES[4]}\n{LINES[3]}\n"),
    "with nine programs": changed(MIDDLE, LINES[5] + "\n", LINES[5] + "\n" + "".join(f"program {it} slots 2 budget 2\n" for it in range(3, 9))),
    "with a program of no limit": with_words(LINES[3], "budget", "steps"),
    "without a failing line": changed(MIDDLE, FAILING[1] + "\n", ""),
    "without failing lines": changed(MIDDLE, "".join(f"{it}\n" for it in FAILING), ""),
    "with a failing line twice": with_line(FAILING[1], f"{FAILING[1]}\n{FAILING[1]}"),
    "with failing lines in another order": changed(MIDDLE, f"{FAILING[0]}\n{FAILING[1]}\n", f"{FAILING[1]}\n{FAILING[0]}\n"),
    "with a line of an image before it": with_line(FAILING[0], BEFORE),
    "with a line of another form": with_line(FAILING[0], "image"),
    "with an empty line": with_line(FAILING[0], ""),
    "with an answer and a sign": with_words(FAILING[0], " answer ", " answer +"),
    "with an answer and a zero before": with_words(FAILING[0], " answer ", " answer 0"),
    "with an answer of 2^64": with_line(FAILING[0], FAILING[0].split(" answer ")[0] + f" answer {2**64} codes - choice -"),
    "with 17 codes": with_line(FAILING[0], FAILING[0].split(" answer ")[0] + f" answer 1 codes {','.join('0' * 17)} choice -"),
    "with a comma after its codes": with_line(FAILING[0], FAILING[0].split(" answer ")[0] + " answer 1 codes 1, choice -"),
    "with a fault that no machine has": with_line(FAILING[0], FAILING[0].split(" answer ")[0] + " fault 89 slot 0 choice -"),
    "with a fault and no slot": with_line(FAILING[0], FAILING[0].split(" answer ")[0] + " fault 80 choice -"),
    "with other words for steps": with_line(FAILING[0], FAILING[0].split(" answer ")[0] + " out of step choice -"),
    "with another word": with_words(FAILING[0], " choice ", " chance "),
    "with a blank more": with_words(FAILING[0], " cut ", "  cut "),
    "with a tab": with_words(FAILING[0], " cut ", "\tcut "),
    "with a blank after a line": with_line(FAILING[0], FAILING[0] + " "),
    "with no choice": with_line(FAILING[0], FAILING[0].rsplit(" ", 1)[0] + " "),
    "with a fate that isn't": with_line(FAILING[0], FAILING[0].rsplit(" ", 1)[0] + " 0.0:drip"),
    "with an eighth past the last": with_line(FAILING[0], FAILING[0].rsplit(" ", 1)[0] + " 0.0:head8"),
    "with no eighth": with_line(FAILING[0], FAILING[0].rsplit(" ", 1)[0] + " 0.0:tail0"),
    "with four lost parts": with_line(FAILING[0], FAILING[0].rsplit(" ", 1)[0] + " 0.0:drop,0.1:drop,2.0:drop,3.0:drop"),
    "with a part by sector and one by write": with_line(FAILING[0], FAILING[0].rsplit(" ", 1)[0] + " 0.0:drop,1:drop"),
    "with a cut of 2^32": with_line(FAILING[0], FAILING[0].replace(" cut ", f" cut {2**32}")),
    "with another number of lines": with_words(LAST, " lines ", " lines 1"),
    "with another number of failing images": with_words(LAST, " failing ", " failing 1"),
    "with another number of images": with_words(LAST, "images ", "images 1"),
    "with the last line of a first image": with_line(LAST, f"images {count(RUN)} first none"),
    "with its last line twice": changed(MIDDLE, f"\n{LAST}\n", f"\n{LAST}\n{LAST}\n"),
}

def with_choice(choice, cut=4, program=0, text=MIDDLE, ending="answer 1 codes -"):
    """The middle part of a run, the first line of which is another one of the same image."""
    first = next(it for it in text.decode().split("\n") if it.startswith("image "))
    return changed(text, f"\n{first}\n", f"\n{first.split(' cut ')[0]} cut {cut} program {program} {ending} choice {choice}\n")


# And one whose lines or head no run prints.
WITHOUT_TEARS = middle_of(Run(RUN.recorded, 4, "all", 2, False))
BY_WRITES = middle_of(Run(RUN.recorded, 4, "all", 2, True, "write"))
UNPRINTED = {
    "with an answer of 0": with_choice("-", ending="answer 0 codes -"),
    "with an answer of 0 and codes": with_choice("-", ending="answer 0 codes 7"),
    "with parts that fall": with_choice("0.1:drop,0.0:drop"),
    "with entries that fall": with_choice("2.0:drop,0.0:drop"),
    "with a part twice": with_choice("0.0:drop,0.0:head1"),
    "with a part of the entry after the cut": with_choice("2.0:drop", 2),
    "with a part of a later entry": with_choice("0.0:drop,3.0:drop", 2),
    "with more parts than the bound": with_choice("0.0:drop,0.1:drop,2.0:drop"),
    "with a lost write in a run by sector": with_choice("0:drop"),
    "with a lost sector in a run by write": with_choice("0.0:drop", text=BY_WRITES),
    "with a torn part in a run without tears": with_choice("0.0:head1", text=WITHOUT_TEARS),
    "with a lost and a torn part in a run without tears": with_choice("0.0:drop,0.1:tail7", text=WITHOUT_TEARS),
    "with a program that its head doesn't have": with_choice("-", program=3),
    "with a cut after the last entry": with_choice("-", 5),
    "with a cut before the first that is asked for": changed(with_choice("-", 2), OPTIONS, OPTIONS + " from 3"),
    "with a cut after the last that is asked for": changed(with_choice("-", 4), OPTIONS, OPTIONS + " to 3"),
    "with bound 4": with_words(OPTIONS, "bound 2", "bound 4"),
    "with bound 9": with_words(OPTIONS, "bound 2", "bound 9"),
    "of a device without sectors": with_words(OPTIONS, "sectors 4", "sectors 0"),
    "of more sectors than a device has": with_words(OPTIONS, "sectors 4", "sectors 33554433"),
    "of more entries than a log has": with_words(OPTIONS, "entries 4", "entries 65537"),
    "with 70,000 entries": with_words(OPTIONS, "entries 4", "entries 70000"),
    "with a flush after the last entry": with_line(OPTIONS, OPTIONS + " flush 4"),
    "with one of several flushes after the last entry": with_line(OPTIONS, OPTIONS + " flush 1,4,2"),
    "with a first cut after the last entry": with_line(OPTIONS, OPTIONS + " from 5"),
    "with a last cut after the last entry": with_line(OPTIONS, OPTIONS + " to 5"),
    "with cuts that fall": with_line(OPTIONS, OPTIONS + " from 3 to 2"),
    "with a program of no slots": with_words(LINES[3], "slots 15", "slots 0"),
    "with a program of too many slots": with_words(LINES[3], "slots 15", "slots 4097"),
    "with a budget of too many steps": with_words(LINES[3], "budget 780", "budget 1000000001"),
    "with a limit of too many steps": with_words(LINES[3], "budget 780", "limit 1000000001"),
    "with more guarded slots than slots": with_line(LINES[3], LINES[3] + " guards 16"),
    "with guards beside a limit": with_line(LINES[3], LINES[3].replace("budget", "limit") + " guards 0"),
}

# Texts that are no part: those of a part with its first failing image alone, changed.
FIRST_LINES = FIRSTS[1].decode().split("\n")
FIRST_FAILING = "".join(f"{it}\n" for it in FIRST_LINES if it.startswith("image "))
FIRST_LAST = FIRST_LINES[-2]
FIRST_BROKEN = {
    "of first, without its lines": changed(FIRSTS[1], FIRST_FAILING, ""),
    "of first, with another first image": changed(FIRSTS[1], FIRST_LAST, FIRST_LAST + "0"),
    "of first, with none": changed(FIRSTS[1], FIRST_LAST, FIRST_LAST.rsplit(" ", 1)[0] + " none"),
    "of first, with lines of two images": changed(FIRSTS[1], FIRST_FAILING, f"{FIRST_FAILING}{FAILING[-1]}\n"),
    "of first, with the last line of all": changed(FIRSTS[1], FIRST_LAST, FIRST_LAST.split(" first ")[0] + " failing 1 lines 1"),
}

# The middle part of runs that differ in one option, in the log or in one program.
STRANGE = {
    "other tears": middle_of(Run(RUN.recorded, 4, "all", 2, False)),
    "another bound": with_words(OPTIONS, "bound 2", "bound 3"),
    "other sectors": with_words(OPTIONS, "sectors 4", "sectors 5"),
    "other entries": with_words(OPTIONS, "entries 4", "entries 5"),
    "other cuts": with_words(OPTIONS, "cuts all", "cuts mark"),
    "by write": BY_WRITES,
    "an added flush": with_line(OPTIONS, OPTIONS + " flush 1"),
    "cuts from one on": with_line(OPTIONS, OPTIONS + " from 0"),
    "cuts up to one": with_line(OPTIONS, OPTIONS + " to 4"),
    "another device before": with_line(OPTIONS, OPTIONS + " base 1"),
    "the first failing image alone": FIRSTS[1],
    "other inputs": changed(MIDDLE, "inputs 5", "inputs 6"),
    "another number of images": changed(MIDDLE, f"of {count(RUN)} ", f"of {count(RUN) + 1} "),
    "another budget": with_words(LINES[3], "budget 780", "budget 781"),
    "a limit": with_words(LINES[3], "budget 780", "limit 780"),
    "guards": with_line(LINES[3], LINES[3] + " guards 15"),
    "as many slots as can be": with_words(LINES[3], "slots 15", "slots 4096"),
    "as many entries as can be": with_words(OPTIONS, "entries 4", "entries 65536"),
    "as many sectors as can be": with_words(OPTIONS, "sectors 4", "sectors 33554432"),
    "as large a budget as can be": with_words(LINES[3], "budget 780", "budget 1000000000"),
    "other slots": with_words(LINES[3], "slots 15", "slots 16"),
    "a program less": part(RUN, CHECKERS[:2], *layout(count(RUN), 3)[1], 5).encode(),
    "a program more": changed(MIDDLE, LINES[5] + "\n", LINES[5] + "\nprogram 3 slots 2 budget 2\n"),
}

GAP = "images or cuts are missing between the file and the part before it (docs/COMMANDS.md, Joining parts)"
PAST_ALL = "the images after those of all parts are missing; with --part the answer is the text of a part"

MISUSES = [
    misused("the middle is missing", [THIRDS[0], THIRDS[2]], 63, 1),
    misused("the middle is missing, in another order", [THIRDS[2], THIRDS[0]], 63, 0),
    misused("an image is missing", texts(RUN, False, [(0, 5), (6, 9)]), 63, 1),
    misused("two gaps: the first by images", texts(RUN, False, [(12, 14), (8, 10), (0, 5)]), 63, 1),
    misused("a gap before an overlap", texts(RUN, False, [(7, 9), (0, 5), (6, 8)]), 63, 2),
    misused("an overlap before a gap", texts(RUN, False, [(9, 12), (0, 5), (4, 8)]), 64, 2),
    misused("the first is missing", THIRDS[1:], 63, 0),
    misused("the first is missing, in another order", [THIRDS[2], MIDDLE], 63, 1),
    misused("the last is missing", THIRDS[:-1], 63, 2),
    misused("the last is missing, in another order", [MIDDLE, THIRDS[0]], 63, 2),
    misused("the first and the last are missing", [MIDDLE], 63, 0),
    misused("the middle and the last are missing", [THIRDS[0]], 63, 1),
    misused("the first image is missing", texts(RUN, False, [(1, count(RUN))]), 63, 0),
    misused("the last image is missing", texts(RUN, False, [(0, count(RUN) - 1)]), 63, 1),
    misused("a gap before the last is missing", texts(RUN, False, [(6, 9), (0, 5)]), 63, 0),
    misused("the first of first is missing", FIRSTS[1:], 63, 0),
    misused("of first, those after its failing image are missing", FIRSTS[:-1], 63, 2),
    misused("the middle is missing, as a part", [THIRDS[0], THIRDS[2]], 63, 1, True),
    misused("one twice, as a part", [THIRDS[0], MIDDLE, MIDDLE], 64, 2, True),
    misused("one twice", [THIRDS[0], MIDDLE, MIDDLE, THIRDS[2]], 64, 2),
    misused("the first twice", [THIRDS[0], THIRDS[0]], 64, 1),
    misused("all twice", [*THIRDS, *THIRDS], 64, 3),
    misused("one within another", [WHOLE, MIDDLE], 64, 1),
    misused("one within another, in another order", [MIDDLE, WHOLE], 64, 0),
    misused("an image twice", texts(RUN, False, [(0, 5), (4, 9)]), 64, 1),
    misused("two that begin alike", texts(RUN, False, [(0, 9), (0, 5)]), 64, 1),
    misused("one of no images with one of another run", [NOTHING, THIRDS[0]], 62, 1),
    *(misused(f"a text {name}", [THIRDS[0], it, THIRDS[2]], 61, 1) for name, it in BROKEN.items()),
    *(misused(f"a text {name}", [THIRDS[0], it, THIRDS[2]], 61, 1) for name, it in UNPRINTED.items()),
    *(misused(f"a text {name}", [FIRSTS[0], it, FIRSTS[2]], 61, 1) for name, it in FIRST_BROKEN.items()),
    misused("a text alone that is cut off", [MIDDLE[:-1]], 61, 0),
    misused("two texts that aren't of parts", [THIRDS[0], THIRDS[1], MIDDLE[:-1], b""], 61, 2),
    *(misused(f"a part of a run with {name}", [THIRDS[0], it, THIRDS[2]], 62, 1) for name, it in STRANGE.items()),
    *(misused(f"a part of a run with {name}, at the end", [THIRDS[0], THIRDS[2], it], 62, 2) for name, it in list(STRANGE.items())[:3]),
    misused("other words before a gap", [THIRDS[0], STRANGE["other inputs"], THIRDS[2][:-1]], 61, 2),
    misused("another run before a gap", [THIRDS[0], THIRDS[2], changed(THIRDS[2], "inputs 5", "inputs 6")], 62, 2),
    misused("a file more than can be", [THIRDS[0]] * (MOST_JOINED + 1), 65, MOST_JOINED),
    replace(misused("the first is missing, with notes", THIRDS[1:], 63, 0), notes=[GAP, "t0 is the file that is meant"]),
    replace(misused("the last is missing, with notes", THIRDS[:-1], 63, 2), notes=[GAP, PAST_ALL]),
]


def unread(name, present, files_named, error, **more):
    """A row of `join` of these files, of which some aren't there or are no texts."""
    return Row(f"not joined: {name}", f"join {files_named}", present, status=2, error=error, **more)


# A file that begins as a part, of a byte more than can be.
LONG = Hole((1 << 30) - len(PART_LINE), b"x", PART_LINE.encode())

FILES = [
    unread("a file that isn't there", {"t0": THIRDS[0]}, "t0 t1", "refused 14 at 1"),
    unread("no file is there", {}, "t0 t1", "refused 14 at 0"),
    unread("a file that isn't there before one that is no part", {"t1": b""}, "t0 t1", "refused 14 at 0"),
    unread("a file that isn't there after one that is no part", {"t0": b""}, "t0 t1", "refused 14 at 1"),
    unread("a file that isn't there, of too many", {"t": THIRDS[0]}, " ".join(["t"] * MOST_JOINED + ["u"]), f"refused 65 at {MOST_JOINED}"),
    unread("one file under two names", {"t": MIDDLE}, "t ./t", "refused 64 at 1"),
    unread("no files", {}, "", Something()),
    unread("an option that it doesn't take", {"t": WHOLE}, "t --first", Something()),
    unread("a byte more than can be", {"t": LONG, "u": MIDDLE}, "u t", "refused 65 at 1", seconds=60),
    unread("no memory for a file", {"t": LONG}, "t", "refused 66 at 0", to="narrow"),
    unread("no part, of more bytes than can be", {"t": Hole(1 << 34), "u": MIDDLE}, "u t", "refused 61 at 1", to="narrow"),
    unread("no part, without end", {"u": MIDDLE}, "u /dev/zero", "refused 61 at 1", to="narrow"),
    unread("a byte more than can be before a file that is no part", {"t": LONG, "u": b"x"}, "u t", "refused 65 at 1", seconds=60),
    unread("a file that isn't there before a byte more than can be", {"t": LONG}, "u t", "refused 14 at 0"),
]


# The text of a part

TWO_SLOTS, PAGES, TREE, JOURNAL = (
    (EXAMPLES / name / "checker.bpf").read_bytes() for name in ("two_slots", "pages", "tree", "journal")
)

# Runs with checkers of the designs, of which the number of the inputs is known: run, programs, what they are.
EXPLORED = {
    "two_slots": (Run(DESIGNS["two_slots/wrong"].recorded, 4, bound=2, tears=True), [TWO_SLOTS], [checker_of("two_slots/wrong")]),
    "pages": (Run(DESIGNS["pages/wrong"].recorded, 24, bound=2, tears=True, by="write"), [PAGES], [checker_of("pages/wrong")]),
    "tree, two programs": (
        Run(DESIGNS["tree/wrong"].recorded, 8, bound=1, tears=True),
        [TREE, JOURNAL],
        [checker_of("tree/wrong"), checker_of("journal/wrong")],
    ),
}
SLOTS_RUN, PAGES_RUN, TREE_RUN = (it[0] for it in EXPLORED.values())

# What was there before, flushes that are added, and a range of cuts.
NARROWED = {
    "over what was there": Run(RUN.recorded, 4, "all", 1, True, base=noise("held", 2)),
    "an added flush": Run(LOGS["torn_over_torn"][1], 4, "all", 1, True, flush=(1,)),
    "a range of cuts": Run(LOGS["flushed"][1], 2, "all", 2, False, first=2, last=5),
    "cuts at flushes": Run(LOGS["flushed"][1], 2, "flush", 2, True),
    "cuts at marks": Run(LOGS["marked"][1], 3, "mark", 1, True),
}
ANSWERS = [Checker("slots 2 limit 2", one), Checker("slots 2 limit 2", zero)]


def of_images(name, run, programs, checkers, start, end, first=False, more=""):
    """A row of `explore --images`."""
    names = " ".join(f"p{number}" for number in range(len(programs)))
    options = f"{run.options()} --images {start}..{end}{' --first' if first else ''}{more}"
    content = files(run.recorded, *programs)
    if run.base:
        content["base"] = run.base
    _lines, is_failing = found(run, checkers, start, end, first)
    text = Long(lambda: part(run, checkers, start, end, inputs_of(run, programs), first))
    return Row(f"a part: {name}: {options}", f"explore log {names} {options}", content, text, 1 if is_failing else 0)


def laid_out(name, parts, first=False, more=""):
    """The parts of a run of a design."""
    run, programs, checkers = EXPLORED[name]
    return [of_images(name, run, programs, checkers, *it, first, more) for it in layout(count(run), parts)]


def answered(name, run, start, end, first=False, more=""):
    return of_images(name, run, [ONE, ZERO], ANSWERS, start, end, first, f" --checked 2{more}")


TOTAL = count(RUN)

EXPLORES = [
    *(row for name in EXPLORED for parts in (1, 2, 7) for first in (False, True) for row in laid_out(name, parts, first)),
    *laid_out("two_slots", 64),
    *(row for more in (" --workers 3", " --workers 64 --cache 16", " --cache 65536") for row in laid_out("two_slots", 3, more=more)),
    *laid_out("tree, two programs", 3, True, " --workers 4 --cache 64"),
    *(answered(name, run, start, end, first) for name, run in NARROWED.items() for start, end in layout(count(run), 3) for first in (False, True)),
    *(answered("ends", RUN, start, end) for start, end in [(0, 1), (TOTAL - 1, TOTAL), (TOTAL // 2, TOTAL // 2 + 1)]),
    answered("no images", NO_IMAGES, 0, 0),
    answered("no images, first", NO_IMAGES, 0, 0, True),
    *(
        replace(row, name=f"{row.name}, with progress", words=f"{row.words} --progress", images=width)
        for row, width in [(answered("by one worker", RUN, 5, 25), 20), (answered("by three workers", RUN, 3, 283, more=" --workers 3"), 280)]
    ),
]


# Words after `--images`


def bad(name, images, error, options=None, content=None, words="explore log p0"):
    options = RUN.options() if options is None else options
    said_words = f"{words} {options} --checked 2 --images={images}"
    return refused(f"no images: {name}", said_words, files(RUN.recorded, ONE) if content is None else content, error)


NO_RANGE = {
    "one number": "1",
    "no last": "1..",
    "no first": "..1",
    "points alone": "..",
    "one point": "1.2",
    "three points": "1...2",
    "three numbers": "1..2..3",
    "a minus": "-1..2",
    "a minus before the last": "1..-2",
    "a sign": "+1..2",
    "a sign before the last": "1..+2",
    "a zero in front": "01..2",
    "a zero in front of the last": "1..02",
    "two zeros": "00..1",
    "a blank before": "␣1..2",
    "a blank after": "1..2␣",
    "a blank between": "1␣..2",
    "a blank alone": "␣",
    "hexadecimal digits": "0x1..2",
    "letters": "a..b",
    "a comma": "1,2",
    "a dash": "1-2",
    "other digits": "１..２",
    "a first of 2^64": f"{2**64}..{2**64 + 1}",
    "a last of 2^64": f"0..{2**64}",
    "a number of many digits": f"0..{'9' * 400}",
    "a number between": "1..2.",
}

BAD_IMAGES = [
    *(bad(name, it, "refused 13 at 17") for name, it in NO_RANGE.items()),
    bad("none, where there are some", "0..0", "refused 13 at 17"),
    bad("as many as below the first", "1..1", "refused 13 at 17"),
    bad("the last before the first", "2..1", "refused 13 at 17"),
    bad("after all", f"{TOTAL}..{TOTAL + 1}", "refused 13 at 17"),
    bad("one more than there are", f"0..{TOTAL + 1}", "refused 13 at 17"),
    bad("far after all", f"{2**63 - 2}..{2**63 - 1}", "refused 13 at 17"),
    bad("at the end of 64 bits", f"{2**64 - 2}..{2**64 - 1}", "refused 13 at 17"),
    bad("more than one process judges", f"0..{MOST_JUDGED + 1}", "refused 13 at 17"),
    bad("all of 64 bits", f"0..{2**64 - 1}", "refused 13 at 17"),
    bad("as many as one process judges, where there are fewer", f"0..{MOST_JUDGED}", "refused 13 at 17"),
    bad("some, where there are none", "0..1", "refused 13 at 17", NO_IMAGES.options(), files(NO_IMAGES.recorded, ONE)),
    # The order of refusals.
    bad("no kind of cuts first", "x", "refused 13 at 7", "--sectors 4 --cuts some"),
    bad("no kind of part first", "x", "refused 13 at 10", "--sectors 4 --by page"),
    bad("no flushes first", "x", "refused 13 at 12", "--sectors 4 --flush x"),
    bad("no range before sectors", "x", "refused 13 at 17", "--sectors 0"),
    bad("sectors before a range that falls", "2..1", "refused 13 at 1", "--sectors 0"),
    bad("cuts that fall before images that do", "2..1", "refused 13 at 13", "--sectors 4 --from 2 --to 1"),
    bad("images that fall before files", "2..1", "refused 13 at 17", content={}),
    bad("files before images that there aren't", "0..9999", "refused 14 at 0", content={}),
    bad("the log before images that there aren't", "0..9999", "refused 1 at 0", content={"log": b"", "p0": ONE}),
    bad("images that there aren't before programs", "0..9999", "refused 13 at 17", content=files(RUN.recorded, b"")),
    bad("programs after images that there are", "0..1", "refused 21 at 0 of program 0", content=files(RUN.recorded, b"")),
    *(
        Row(f"no images: {command} takes none", f"{command} log p0 {RUN.options()} --images 0..1", files(RUN.recorded, ONE), status=2, error=Something())
        for command in ("why", "cure", "page")
    ),
    *(
        Row(f"no images: {name}", f"{words} {RUN.options()}", files(RUN.recorded, ONE), status=2, error=Something())
        for name, words in {
            "explore takes a word": "explore log p0 --images",
            "images takes none": "images log --images=0..1",
            "log takes none": "log log --images",
            "parts are of images alone": "explore log p0 --parts 2",
            "parts are a number": "images log --parts x",
            "parts aren't below none": "images log --parts=-1",
        }.items()
    ),
]


# Runs of any number of images

# 1,950 sectors of 650 writes, discards among them, on their way at one cut: a run with some 4,000,000,000,000 images.
WRITES = [
    D(place * 3 % 61, 3) if place % 7 == 3 else S(place * 3 % 61, noise(f"wide {place}", 3)) for place in range(650)
]
WIDE = WideRun([*WRITES, F], 63, "flush", 3, True)
BY_WRITE = WideRun([M("begun"), *WRITES[:400], S(0, noise("forced", 2), FUA | FLUSH), *WRITES[400:]], 63, "all", 3, True, "write")

# Sectors that are discarded. The number that may be on their way gives a cut close to 2^63 images.
DEVICE = 16384
LIMIT = 2**63


def ways(sectors):
    """How many images a cut has at which that many sectors are on their way, with bound 3 and tears."""
    return sum(comb(sectors, lost) * 15**lost for lost in range(4))


def discards(sectors):
    """Entries that discard that many sectors in all."""
    return [D(0, min(DEVICE, sectors - begun)) for begun in range(0, sectors, DEVICE)]


# The most sectors on their way at one cut with fewer than 2^63 images, of a log that is at its limit of sectors or below.
MOST_SECTORS = next(it for it in range(254500, 253000, -1) if ways(it) < LIMIT)
FULL = discards(262144)


@cache
def near_limit():
    return WideRun(discards(MOST_SECTORS), DEVICE, "flush", 3, True)


def passes_limit(entries):
    """With which cut of all the images pass the limit."""
    total = 0
    for cut in range(len(entries) + 1):
        total += ways(DEVICE * cut)
        if total >= LIMIT:
            return cut
    raise ValueError("the limit isn't passed")


# What is asked of a run of any number of images.
WIDE_WORDS = [
    "images log --images",
    "images log --images --parts 4",
    "image log 0 --images",
    "show log --cut 0 --choice - --images",
    "explore log p0 --images 0..1 --checked 2",
]


def last_choice():
    """The last choice of the last cut: its three last sectors, each torn in the last way."""
    names = [f"{number}.{place}" for number, entry in enumerate(discards(MOST_SECTORS)) for place in range(entry.count)]
    return ",".join(f"{it}:tail7" for it in names[-3:])


NEAR = "--sectors 16384 --cuts flush --bound 3 --tears"
ALL_CUTS = "--sectors 16384 --cuts all --bound 3 --tears"


def numbered(run, number):
    """An image of a run by number and by choice: its bytes, and in words."""
    image, options, content = image_at(run, number), f"{run.options()} --images", files(run.recorded)
    choice = f"--cut {image.cut} --choice {image.choice()}"
    return [
        Row(f"wide: image {number} {options}", f"image log {number} {options}", content, Long(image.content)),
        Row(f"wide: show {number} {options}", f"show log {number} {options}", content, Long(lambda: shown(run, image))),
        Row(f"wide: image {choice} {options}", f"image log {choice} {options}", content, Long(image.content)),
        Row(f"wide: show {choice} {options}", f"show log {choice} {options}", content, Long(lambda: shown(run, image))),
    ]


def too_many(run):
    """What a run with too many images for one process is refused without `--images`."""
    cut = first_beyond(run, MOST_JUDGED)
    last = image_at(run, count(run) - 1)
    words = ["images log", "image log 0", "show log 0", f"image log --cut {last.cut} --choice {last.choice()}", "explore log p0 --checked 2"]
    return [refused(f"wide: {it} {run.options()}", f"{it} {run.options()}", files(run.recorded, ONE), f"refused 12 at {cut}") for it in words]


def beyond(run):
    """What is refused after the last image of a run."""
    content, total = files(run.recorded, ONE), count(run)
    options = f"{run.options()} --images"
    return [
        *(refused(f"wide: {command} {number} {options}", f"{command} log {number} {options}", content, "refused 13 at 9") for command in ("image", "show") for number in (total, LIMIT, 2**64 - 1)),
        refused(f"wide: no such choice {options}", f"image log --cut 1 --choice 0.0:drop,0.0:drop {options}", content, "refused 13 at 11"),
        refused(f"wide: a part past all {options}", f"explore log p0 {run.options()} --images {total}..{total + 1} --checked 2", content, "refused 13 at 17"),
    ]


def some_numbers(run):
    """Numbers of images of a run: both ends, about the limit of one process, and some between."""
    total = count(run)
    return sorted(it for it in {0, 1, MOST_JUDGED - 1, MOST_JUDGED, 2**32, total // 3, 2 * total // 3, total - 1} if it < total)


def surveyed(run, more="", parts=None):
    words = f"images log {run.options()}{more}{f' --parts {parts}' if parts else ''}"
    return Row(f"laid out: {words}", words, files(run.recorded), Long(lambda: survey(run, parts)))


def unlaid(run, parts, more=" --images", error="refused 13 at 18"):
    words = f"images log {run.options()}{more} --parts {parts}"
    return refused(f"laid out: {words}", words, files(run.recorded), error)


# 141,070,561 images at one cut, for which nine parts are too few by some.
HUNDRED = WideRun([W(0, 64, 0xAA)], 64, "flush", 3, True)
LEAST_PARTS = -(-count(HUNDRED) // MOST_JUDGED)

LAYOUTS = [
    *(surveyed(run, more, parts) for run in (RUN, TREE_RUN) for more in ("", " --images") for parts in (None, 1, 2, 7, 64)),
    *(surveyed(RUN, "", parts) for parts in (count(RUN) - 1, count(RUN), count(RUN) + 1, MOST_PARTS)),
    *(surveyed(NO_IMAGES, "", parts) for parts in (1, 2, MOST_PARTS)),
    surveyed(PAGES_RUN, "", 5),
    *(surveyed(run, " --images", parts) for run in (HUNDRED,) for parts in (None, LEAST_PARTS, LEAST_PARTS + 1, 64, 1000)),
    *(surveyed(run, " --images") for run in (WIDE, BY_WRITE)),
    unlaid(RUN, 0, ""),
    unlaid(RUN, MOST_PARTS + 1, ""),
    unlaid(RUN, 2**64 - 1, ""),
    unlaid(NO_IMAGES, 0, ""),
    unlaid(HUNDRED, LEAST_PARTS - 1),
    unlaid(HUNDRED, 1),
    unlaid(HUNDRED, LEAST_PARTS, "", f"refused 12 at {first_beyond(HUNDRED, MOST_JUDGED)}"),
    unlaid(HUNDRED, 0, "", f"refused 12 at {first_beyond(HUNDRED, MOST_JUDGED)}"),
    refused("laid out: the log first", "images log --sectors 4 --parts 0", {"log": b""}, "refused 1 at 0"),
]

NEAR_LIMIT = [
    Row("wide: close to 2^63, images", f"images log {NEAR} --images", files(discards(MOST_SECTORS)), Long(lambda: survey(near_limit()))),
    Row(
        "wide: close to 2^63, the last image",
        f"show log {ways(MOST_SECTORS) - 1} {NEAR} --images",
        files(discards(MOST_SECTORS)),
        Long(lambda: shown(near_limit(), image_at(near_limit(), ways(MOST_SECTORS) - 1))),
    ),
    Row(
        "wide: close to 2^63, the last image by its choice",
        f"image log --cut {len(discards(MOST_SECTORS))} --choice {last_choice()} {NEAR} --images",
        files(discards(MOST_SECTORS)),
        Long(lambda: bytes(SECTOR * DEVICE)),
    ),
    Row(
        "wide: close to 2^63, the last images",
        f"explore log p0 p1 {NEAR} --images {ways(MOST_SECTORS) - 70}..{ways(MOST_SECTORS)} --checked 2",
        files(discards(MOST_SECTORS), ONE, ZERO),
        Long(lambda: part(near_limit(), ANSWERS, ways(MOST_SECTORS) - 70, ways(MOST_SECTORS), inputs_of(near_limit(), [ONE, ZERO]))),
        1,
    ),
    refused("wide: close to 2^63, no image after all", f"image log {ways(MOST_SECTORS)} {NEAR} --images", files(discards(MOST_SECTORS)), "refused 13 at 9"),
    refused("wide: close to 2^63, no layout", f"images log {NEAR} --images --parts {MOST_PARTS}", files(discards(MOST_SECTORS)), "refused 13 at 18"),
    *(
        refused(f"wide: past 2^63 at the only cut: {words}", f"{words} {NEAR}", files(discards(MOST_SECTORS + 1), ONE), f"refused 12 at {len(discards(MOST_SECTORS + 1))}")
        for words in WIDE_WORDS
    ),
    *(refused(f"wide: past 2^63 at one of all cuts: {words}", f"{words} {ALL_CUTS}", files(FULL, ONE), f"refused 12 at {passes_limit(FULL)}") for words in WIDE_WORDS),
]

WIDE_ROWS = [
    *(row for run in (WIDE, BY_WRITE) for number in some_numbers(run) for row in numbered(run, number)),
    *(row for run in (WIDE, BY_WRITE) for row in [*too_many(run), *beyond(run)]),
    *(row for run in (TREE_RUN, RUN) for row in numbered(run, 17)),
    *(
        answered("wide", run, start, start + 100, first, more)
        for run in (WIDE, BY_WRITE)
        for start in (0, MOST_JUDGED - 50, count(run) // 2, count(run) - 100)
        for first, more in [(False, ""), (True, " --workers 2"), (False, " --workers 3 --cache 64")]
    ),
    *NEAR_LIMIT,
]

ROWS = [*JOINS, *MISUSES, *FILES, *EXPLORES, *BAD_IMAGES, *LAYOUTS, *WIDE_ROWS]
