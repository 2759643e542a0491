"""Runs of any number of losses in parts: what `join` makes of their texts in any order and in steps, and every text that it refuses. All is
compared with the model (case_parts_model.py)."""
import re
from itertools import takewhile

from case_parts_model import MOST_CASES, join_texts
from cases_model import ANY, Losses, cases, cut_ranges, judged_cuts, ranged
from designs import DESIGNS, checker_of
from model import Run
from notation import F, FLUSH, M, Row, S, W
from parts_model import shuffled

from rows.cases import runs
from rows.joining import MIDDLE as IMAGES
from rows.joining import changed, said
from rows.modelled import CHECKERS

# How many parts a run is laid out in.
PARTS = [1, 2, 3, 7]


def row_of(name, texts, some=False):
    """A row of `join` of these texts, with `some` of `join --part`, which says what the model makes of them."""
    content = {f"t{number}": text for number, text in enumerate(texts)}
    return Row(f"cases {name}", f"join {'--part ' if some else ''}{' '.join(content)}", content, **said(*join_texts(texts, some)))


def texts_of(run, checkers, losses, parts):
    """The texts of a run that is laid out in that many parts, by the number of inputs 5, which no join asks for."""
    return [cases(ranged(run, *it), checkers, losses, 5).encode() for it in cut_ranges(run, losses, parts)]


# Joins that are the whole


def has_all(run):
    return not run.first and run.last in (None, len(run.entries))


def whole(number, name, run, checkers, losses):
    """All parts of a run, in another order."""
    parts = PARTS[number % 4]
    row = row_of(f"joined, run {number} in {parts} parts: {name}, {losses.options()}", shuffled(name, texts_of(run, checkers, losses, parts)), not has_all(run))
    if has_all(run):
        assert row.out == cases(ranged(run, None, None), checkers, losses).encode(), name
    return row


def in_steps(number, name, run, checkers, losses):
    """The first two parts of a run come to a part, and this with the others to the whole."""
    texts = texts_of(run, checkers, losses, 4)
    some = row_of(f"joined in steps, {number}: {name}", texts[1::-1], True)
    return [some, row_of(f"joined in steps, the rest, {number}: {name}", [*texts[2:], some.out], not has_all(run))]


ALL = list(runs())
SOME = [(name, run, CHECKERS, losses) for name, run, losses in ALL[::2]]
OF_DESIGNS = [(which, DESIGNS[which], [checker_of(which)], ANY) for which in DESIGNS]
STEPS = [it for it in [*OF_DESIGNS, *SOME] if len(judged_cuts(it[1], it[3])) > 2]

JOINS = [
    *(whole(number, *it) for number, it in enumerate([*OF_DESIGNS, *SOME])),
    *(row for number, it in enumerate(STEPS[::3]) for row in in_steps(number, *it)),
]


# Texts that aren't joined

# With tears, so that parts have more than two fates: a write of which the third piece alone differs, one of two sectors, and a flush.
RUN = Run([S(0, bytes(128) + b"\xaa" * 64 + bytes(320)), W(2, 2, 0xAA), W(1, 1, 0xBB), M("x"), F, W(0, 1, 0xCC), W(3, 1, 0xDD, FLUSH), W(1, 1, 0xEE)], 4, "all", 2, True)
LOSSES = Losses(1, None)
THIRDS = texts_of(RUN, CHECKERS, LOSSES, 3)
MIDDLE = THIRDS[1]
LINES = MIDDLE.decode().split("\n")
OPTIONS, PROGRAMS, LAST = LINES[2], list(takewhile(lambda it: it.startswith("program "), LINES[3:])), LINES[-2]
FAILING = [it for it in LINES if it.startswith("cut ")]
MIXED = next(it for it in FAILING if " among " in it and " kept -" not in it)
LOST = next(it for it in FAILING if re.search(r" choice [^ ]*drop,[^ ]*drop", it))


def with_line(old, new, text=MIDDLE):
    return changed(text, f"\n{old}\n", f"\n{new}\n")


def with_words(line, old, new):
    assert old in line, (old, line)
    return with_line(line, line.replace(old, new, 1))


def with_match(line, pattern, new):
    """The middle part with a line in which what is matched is another one."""
    other, count = re.subn(pattern, new, line, count=1)
    assert count == 1 and other != line, (pattern, line)
    return with_line(line, other)


CHOICE = re.search(r" choice ([^ ]+)", LOST)[1].split(",")
AMONG = re.search(r" among ([^ ]+)", MIXED)[1].split(",")
FATES = AMONG[0].split(":")[1].split("+")
BROKEN = {
    "cut off": MIDDLE[:-1],
    "cut off before its last line": MIDDLE[: -len(LAST) - 1],
    "cut off within a line": MIDDLE[: MIDDLE.index(FAILING[1].encode()) + 20],
    "cut off within its head": MIDDLE[:40],
    "its first line alone": b"crash cases 1\n",
    "its first line without its newline": b"crash cases 1",
    "a byte after it": MIDDLE + b" ",
    "a line after it": MIDDLE + b"\n",
    "two texts in one": MIDDLE + THIRDS[2],
    "of why": changed(MIDDLE, "crash cases 1", "crash why cases 1"),
    "with a byte of 128 and more": changed(MIDDLE, "choice", b"choic\xe9"),
    "with zeros": changed(MIDDLE, "kept", "k\0pt"),
    "with the ends of lines of DOS": changed(MIDDLE, "\n", "\r\n", MIDDLE.count(b"\n")),
    "without the number of its inputs": with_line("inputs 5", "").replace(b"\n\n", b"\n"),
    "with no number of its inputs": with_line("inputs 5", "inputs "),
    "with inputs that are no number": with_line("inputs 5", "inputs x"),
    "with inputs with a zero before": with_line("inputs 5", "inputs 05"),
    "with inputs 2^64": with_line("inputs 5", f"inputs {2**64}"),
    "with a word after its inputs": with_line("inputs 5", "inputs 5 6"),
    "with its inputs twice": with_line("inputs 5", "inputs 5\ninputs 5"),
    "with its inputs after its options": changed(MIDDLE, f"inputs 5\n{OPTIONS}\n", f"{OPTIONS}\ninputs 5\n"),
    "with inputs, of all cuts": with_match(OPTIONS, r" from \d+ to \d+", ""),
    "without options": changed(MIDDLE, OPTIONS + "\n", ""),
    "with a bound": with_words(OPTIONS, "bound any", "bound 3"),
    "with tears and no torn": with_words(OPTIONS, " torn 1", ""),
    "with 4 torn": with_words(OPTIONS, "torn 1", "torn 4"),
    "with 0 torn": with_words(OPTIONS, "torn 1", "torn 0"),
    "with torn and no tears": with_words(OPTIONS, "tears yes", "tears no"),
    "with at most 0": with_words(OPTIONS, "torn 1", "torn 1 at-most 0"),
    "with at most 65": with_words(OPTIONS, "torn 1", "torn 1 at-most 65"),
    "with at most before torn": with_words(OPTIONS, "tears yes torn 1", "at-most 2 tears yes torn 1"),
    "with first": with_words(OPTIONS, " torn 1", " torn 1 first yes"),
    "with cuts that fall": with_match(OPTIONS, r"from (\d+) to \d+", r"from \1 to 0"),
    "with a last cut after the last entry": with_match(OPTIONS, r"to \d+", f"to {len(RUN.entries) + 1}"),
    "of more entries than a log has": with_match(OPTIONS, r"entries \d+", "entries 65537"),
    "without programs": changed(MIDDLE, "".join(f"{it}\n" for it in PROGRAMS), ""),
    "without its first program": changed(MIDDLE, PROGRAMS[0] + "\n", ""),
    "without a failing line": changed(MIDDLE, FAILING[1] + "\n", ""),
    "with a failing line twice": with_line(FAILING[1], f"{FAILING[1]}\n{FAILING[1]}"),
    "with failing lines in another order": changed(MIDDLE, f"{FAILING[0]}\n{FAILING[1]}\n", f"{FAILING[1]}\n{FAILING[0]}\n"),
    "with an empty line": with_line(FAILING[0], ""),
    "with a blank after a line": with_line(FAILING[0], FAILING[0] + " "),
    "with a cut before its first": with_match(FAILING[0], r"^cut \d+", "cut 0"),
    "with a cut after its last": with_match(FAILING[-1], r"^cut \d+", f"cut {len(RUN.entries)}"),
    "with more epochs than entries": with_match(FAILING[0], r"epoch \d+", "epoch 99"),
    "with more marks than entries": with_match(FAILING[0], r"marks \d+", "marks 99"),
    "with two epochs at one cut": with_match(FAILING[1], r"epoch \d+", "epoch 3"),
    "with a program that its head doesn't have": with_match(FAILING[0], r"program \d", f"program {len(PROGRAMS)}"),
    "with a case past the most": with_match(FAILING[0], r"case \d+", f"case {MOST_CASES}"),
    "with an answer of 0": with_match(FAILING[0], r"answer \d+", "answer 0"),
    "with a fault that no machine has": with_match(FAILING[0], r"answer \d+ codes [^ ]+", "fault 89 slot 0"),
    "with 17 codes": with_match(FAILING[0], r"codes [^ ]+", f"codes {','.join('0' * 17)}"),
    "with a choice of no part": with_match(LOST, r"choice [^ ]+", "choice "),
    "with a fate that isn't": with_match(LOST, r":drop", ":drip"),
    "with lost parts that fall": with_match(LOST, r"choice [^ ]+", f"choice {','.join(CHOICE[::-1])}"),
    "with a lost part twice": with_match(LOST, r"choice [^ ]+", f"choice {','.join([CHOICE[0], *CHOICE])}"),
    "with a lost part of an entry after the cut": with_match(LOST, r"choice ([^ ]+)", r"choice \1,99.0:drop"),
    "with a lost part by write": with_match(LOST, r"choice [^ ]+", "choice 0:drop"),
    "with a kept part of an entry after the cut": with_match(MIXED, r"kept ([^ ]+)", r"kept \1,99.0"),
    "with a kept part twice": with_match(MIXED, r"kept ([^ ,]+)", r"kept \1,\1"),
    "with a kept part that is lost": with_match(LOST, r"kept [^ ]+", f"kept {CHOICE[0].split(':')[0]}"),
    "with a kept part that is mixed": with_match(MIXED, r"kept [^ ]+", f"kept {AMONG[0].split(':')[0]}"),
    "with no mixed part": with_match(MIXED, r" among [^ ]+", " among -"),
    "with one fate of a mixed part": with_match(MIXED, r" among [^ ]+", f" among {AMONG[0].split(':')[0]}:{FATES[0]}"),
    "with fates that fall": with_match(MIXED, r" among [^ ]+", f" among {AMONG[0].split(':')[0]}:{'+'.join(FATES[::-1])}"),
    "with a fate twice": with_match(MIXED, r" among [^ ]+", f" among {AMONG[0].split(':')[0]}:{'+'.join([FATES[0], *FATES])}"),
    "with other fates than its choice": with_match(MIXED, r" among [^ ]+", f" among {AMONG[0].split(':')[0]}:{'+'.join(FATES[1:] + ['tail7'] * (FATES[-1] != 'tail7'))}"),
    "with no free": with_match(FAILING[0], r" free \d+", ""),
    "with free of 2^64": with_match(FAILING[0], r"free \d+", f"free {2**64}"),
    "with no window": with_match(FAILING[0], r" flush .*", ""),
    "with a window that falls": with_match(FAILING[0], r"flush .*", "flush 1..0"),
    "with a window after the cut": with_match(FAILING[0], r"flush .*", "flush 0..99"),
    "with another number of failing cases": with_match(LAST, r"failing \d+", "failing 1"),
    "with fewer cases than lines": with_match(LAST, r"cases \d+", "cases 1"),
    "with more cases than a run may have": with_match(LAST, r"cases \d+", f"cases {MOST_CASES + 1}"),
    "with fewer cuts than its lines have": with_match(LAST, r"cuts \d+", "cuts 0"),
    "with more cuts than its range": with_match(LAST, r"cuts \d+", "cuts 99"),
    "with cases left out, and none of these cuts": with_match(LAST, r" torn beyond .*", " torn beyond 1 lost beyond 0 of these cuts"),
    "with no case left out, and no word of it": with_match(LAST, r" torn beyond .*", " torn beyond 0 lost beyond 0"),
    "of a range, and complete": with_match(LAST, r" torn beyond .*", " torn beyond 0 lost beyond 0 complete"),
    "with its last line twice": changed(MIDDLE, f"\n{LAST}\n", f"\n{LAST}\n{LAST}\n"),
    "the text of a part of images": IMAGES,
}

# What a run might print too, though not this one.
OTHERS = {
    "another answer": with_match(FAILING[0], r"answer \d+", "answer 77"),
    "another case": with_match(FAILING[-1], r"case \d+", f"case {MOST_CASES - 1}"),
    "cases left out": with_match(LAST, r" torn beyond .*", f" torn beyond {2**64 - 1} lost beyond 1"),
}

# The middle part of runs that differ in one option, or in a program.
STRANGE = {
    "other inputs": with_line("inputs 5", "inputs 6"),
    "the largest number of inputs": with_line("inputs 5", f"inputs {2**64 - 1}"),
    "2 torn": with_words(OPTIONS, "torn 1", "torn 2"),
    "at most 3": with_words(OPTIONS, "torn 1", "torn 1 at-most 3"),
    "other sectors": with_match(OPTIONS, r"sectors \d+", "sectors 5"),
    "other entries": with_match(OPTIONS, r"entries \d+", "entries 9"),
    "an added flush": with_words(OPTIONS, " from ", " flush 1 from "),
    "another device before": with_match(OPTIONS, r"$", " base 1"),
    "another budget": with_match(PROGRAMS[0], r"budget \d+", "budget 1000"),
    "guards": with_match(PROGRAMS[0], r"$", " guards 1"),
}


def misused(name, texts, number, place, some=False):
    """A row of texts that aren't joined, with `some` by `join --part`. The model says the same."""
    row = row_of(f"not joined: {name}", texts, some)
    assert row.error == f"refused {number} at {place}", (name, row.error, row.status)
    return row


def many(first, last, total):
    """The text of a part of which no line is shown, with that many cases."""
    head = re.sub(r"from \d+ to \d+", f"from {first} to {last}", OPTIONS)
    return "".join(f"{it}\n" for it in ("crash cases 1", "inputs 5", head, *PROGRAMS, f"cuts 1 cases {total} failing 0 torn beyond 0 lost beyond 0 of these cuts")).encode()


END = len(RUN.entries)
ENDS = [(0, 2), (3, 5), (6, END)]
LARGE = [many(*it, total) for it, total in zip(ENDS, (MOST_CASES - 3, 2, 2))]
FULL = [many(*it, total) for it, total in zip(ENDS, (MOST_CASES - 3, 2, 1))]

REFUSED = [
    *(misused(name, [THIRDS[0], text, THIRDS[2]], 61, 1) for name, text in BROKEN.items()),
    *(row_of(f"joined: {name}", [THIRDS[0], text, THIRDS[2]]) for name, text in OTHERS.items()),
    *(misused(f"of another run, {name}", [THIRDS[0], text, THIRDS[2]], 62, 1) for name, text in STRANGE.items()),
    misused("of images, the first", [IMAGES, *THIRDS], 61, 1),
    misused("without the first", THIRDS[1:], 63, 0),
    misused("without the first, in another order", THIRDS[:0:-1], 63, 1),
    misused("without the last", THIRDS[:2], 63, 2),
    misused("without the one in the midst", THIRDS[::2], 63, 1),
    misused("without the one in the midst, as a part", THIRDS[::2], 63, 1, True),
    misused("with the first twice", [*THIRDS, THIRDS[0]], 64, 3),
    misused("with the last twice", [THIRDS[2], *THIRDS], 64, 3),
    misused("the first alone", THIRDS[:1], 63, 1),
    misused("all of one log but the last", [*THIRDS[:2], changed(THIRDS[2], "inputs 5", "inputs 6")], 62, 2),
    misused("of other inputs before a gap", [THIRDS[0], changed(THIRDS[2], "inputs 5", "inputs 6")], 62, 1),
    misused("the text of all cuts beside a part", [cases(ranged(RUN, None, None), CHECKERS, LOSSES).encode(), THIRDS[0]], 62, 1),
    row_of("joined: of the largest number of inputs", [changed(it, "inputs 5", f"inputs {2**64 - 1}") for it in THIRDS[:2]], True),
    row_of("joined: the text of all cuts alone", [cases(ranged(RUN, None, None), CHECKERS, LOSSES).encode()]),
    misused("too many cases", LARGE[::-1], 12, 0),
    misused("too many cases, as a part", LARGE, 12, 2, True),
    misused("too many cases, and the last is missing", [many(0, 2, MOST_CASES), many(3, 5, 1)], 12, 1),
    row_of("joined: as many cases as can be", FULL),
    row_of("joined: without the first, as a part", THIRDS[1:], True),
    row_of("joined: without the last, as a part", THIRDS[:2], True),
    row_of("joined: the one in the midst, as a part", THIRDS[1:2], True),
    row_of("joined: all, as a part", THIRDS, True),
]

ROWS = [*JOINS, *REFUSED]
