"""Each file that a command takes, as it may be no good: one byte too long, as long as may be, unreadable, and of another kind. Each
such run ends with the number of its refusal and its place, and prints nothing; where it answers, the answer is the model's."""
# Seen to fail for planted bugs: a length in slots, an unreadable `--base` that is taken for an empty one.
import os
from dataclasses import replace

from export_model import exported
from model import Checker, Run, explored, head, number_of, zero
from notation import SECTOR, F, Folder, Hole, Link, Locked, Long, Row, W, code, log, refused
from parts_model import PART_LINE, layout, part, report

from rows.based import explained, in_words
from rows.browser import modelled as paged
from rows.flushes import modelled as cured
from rows.modelled import CHECKERS, count, modelled, noise, shown
from rows.raw_logs import raw

MIB = 1 << 20

# The most bytes of a log, with --large too, of a program, of an assembly text, of all parts together, and of an image.
MOST_LOG, MOST_LARGE_LOG, MOST_RAW, MOST_PROGRAM, MOST_TEXT, MOST_PARTS, MOST_IMAGE = 64 * MIB, 1024 * MIB, 192 * MIB, 8 * 4096, 16 * MIB, 1024 * MIB, 8 * MIB

# A log over what the device held, all of whose bytes count; and what each command on a log answers of it.
RUN = Run([W(0, 1, 0xAA), F, W(1, 2, 0xBB), W(3, 1, 0xCC)], 4, base=noise("inputs", 4))
NUMBER = count(RUN) - 2
IMAGES = list(RUN.images())
TABLE = """\
entry 0 epoch 0 write sector 0 count 1
entry 1 epoch 0 flush
entry 2 epoch 1 write sector 1 count 2
entry 3 epoch 1 write sector 3 count 1
"""

EXPLORED, _FIRST, SURVEYED = modelled("inputs", RUN)
ANSWERED = [
    EXPLORED,
    explained("inputs", RUN),
    cured("inputs", RUN),
    paged("inputs", RUN),
    SURVEYED,
    Row("export", f"export log {RUN.options()}", {"log": log(RUN.recorded)}, exported(RUN)),
    *shown("inputs", RUN, [NUMBER]),
    in_words(RUN)[-1],
    Row("log", "log log --sectors 4 --base base", {"log": log(RUN.recorded)}, TABLE),
]
ANSWERS = {it.words.split()[0]: replace(it, files={**it.files, "base": RUN.base}) for it in ANSWERED}
assert [*ANSWERS] == ["explore", "why", "cure", "page", "images", "export", "image", "show", "log"]

# What a file is that can't be read, as its name and what lies there. A superuser may read a file without permission.
UNREADABLE = {
    "a missing file": ("gone", {}),
    "a folder": ("folder", {"folder": Folder()}),
    "a file below a file": ("base/file", {}),
    "a link to itself": ("link", {"link": Link("link")}),
    "a link to nothing": ("link", {"link": Link("gone")}),
    "a file whose bytes can't be read": ("/proc/self/mem", {}),
    "a name that is too long": ("n" * 300, {}),
    **({} if os.geteuid() == 0 else {"a file without permission": ("locked", {"locked": Locked(b"locked")})}),
}

# Files of a kind each, that are good as what they are.
ZERO = code("b7000000000000009500000000000000")
PART = part(RUN, [Checker("slots 2 budget 2", zero)], 0, 2, 5, False).encode()
KINDS = {
    "a log": log(RUN.recorded),
    "a raw log": raw(4096, [(0, 1, 0, bytes(4096))]),
    "a program": ZERO,
    "an assembly text": b"mov64 r0, 0\nexit\n",
    "a part": PART,
    "a report": explored(RUN, [Checker("slots 2 budget 2", zero)]).encode(),
    "an image": bytes(SECTOR),
    "an object file": b"\x7fELF\x02\x01\x01".ljust(640, b"\0"),
}


def with_file(row, name, file, content):
    """The words and the files of a row, with another file in the place of one."""
    command, *words = row.words.split()
    words = [file if it == name else it for it in words]
    return " ".join([command, *words]), {**row.files, **content}


def unreadable(row, name, error):
    """The runs of a row in which one of its files can't be read."""
    return [
        refused(f"inputs: {what} as {name}, {row.words.split()[0]}", *with_file(row, name, file, content), error)
        for what, (file, content) in UNREADABLE.items()
    ]


def of_kinds(row, name, errors):
    """The runs of a row in which one of its files is of another kind, by the refusal of each."""
    command = row.words.split()[0]
    return [
        refused(f"inputs: {what} as {name}, {command}", row.words, {**row.files, name: KINDS[what]}, error)
        for what, error in errors.items()
    ]


def answered(row, what, name, content):
    """A run of a row with another content of one of its files, which answers the same."""
    return replace(row, name=f"inputs: {what} as {name}, {row.words.split()[0]}", files={**row.files, name: content})


def no_answer(row, what, name, content, error):
    """A run of a row with another content of one of its files, which is refused."""
    return refused(f"inputs: {what} as {name}, {row.words.split()[0]}", row.words, {**row.files, name: content}, error)


def filled(begun, length):
    """A file of that many bytes that begins with these, zeros after them."""
    return Hole(length - len(begun), b"", begun)


def padded(row, what, length):
    """A run of a row with a log that zeros follow, which answers the same; what is exported says of which file it is."""
    found = answered(row, what, "log", filled(log(RUN.recorded), length))
    if not row.words.startswith("export "):
        return found
    number = number_of([log(RUN.recorded).ljust(length, b"\0"), head(RUN, [], False).encode()])
    return replace(found, out=f"inputs {number}\n".encode() + row.out.partition(b"\n")[2])


# Logs

NO_LOG = {it: "refused 2 at 0" for it in ["an assembly text", "a program", "a part", "a report"]}
NO_LOG = {it: "refused 1 at 0" if len(KINDS[it]) < SECTOR else error for it, error in NO_LOG.items()}
NO_LOG = {**NO_LOG, "an image": "refused 2 at 0", "an object file": "refused 2 at 0", "a raw log": "refused 4 at 0"}


def large(row):
    """A row with --large, under another name."""
    return replace(row, words=f"{row.words} --large")


AS_LOG = [
    row
    for it in ANSWERS.values()
    for row in [
        *unreadable(it, "log", "refused 14 at 0"),
        *of_kinds(it, "log", NO_LOG),
        padded(it, "64 MiB", MOST_LOG),
        padded(it, "a byte less than 64 MiB", MOST_LOG - 1),
        no_answer(it, "64 MiB and a byte", "log", filled(log(RUN.recorded), MOST_LOG + 1), "refused 10 at 0"),
        padded(large(it), "64 MiB and a byte, large,", MOST_LOG + 1),
    ]
]
AS_LOG += [
    answered(large(ANSWERS["log"]), "1 GiB, large,", "log", filled(log(RUN.recorded), MOST_LARGE_LOG)),
    no_answer(large(ANSWERS["log"]), "1 GiB and a byte, large,", "log", filled(log(RUN.recorded), MOST_LARGE_LOG + 1), "refused 10 at 0"),
    no_answer(large(ANSWERS["explore"]), "1 GiB and a byte, large,", "log", filled(log(RUN.recorded), MOST_LARGE_LOG + 1), "refused 10 at 0"),
]


# Programs: those of a run, after its log, and the program of a command that has no log

MOVE, EXIT = ZERO[:8], ZERO[8:]
LONGEST = MOVE * (MOST_PROGRAM // 8 - 1) + EXIT
LENGTHS = {
    "a byte less than 4,096 slots": (LONGEST[:-1], 20, 4095),
    "a byte more than 4,096 slots": (LONGEST + b"\0", 20, 4096),
    "4,097 slots": (MOVE + LONGEST, 21, 0),
    # 5,000 slots, of which a length in slots would leave 625
    "40,000 bytes": (MOVE * 4999 + EXIT, 21, 0),
}
NO_PROGRAM = {
    # its first bytes are a store of a number, with a source register, which has none
    "a log": (24, 0),
    "an assembly text": (20, len(KINDS["an assembly text"]) // 8),
    "a part": (20, len(PART) // 8),
    # its first byte is that of no instruction
    "an image": (22, 0),
    # its first bytes are a shift by a register, with an offset, which has none
    "an object file": (24, 0),
}
assert len(PART) % 8 and KINDS["a log"][:2] == b"rh" and KINDS["an object file"][:4] == b"\x7fELF"


def as_program(row, name, place, of):
    """The runs of a row whose program is no good: the place of a file that can't be read, and what stands after other refusals."""
    return [
        *unreadable(row, name, f"refused 14 at {place}"),
        *of_kinds(row, name, {it: f"refused {number} at {at}{of}" for it, (number, at) in NO_PROGRAM.items()}),
        *(no_answer(row, it, name, content, f"refused {number} at {at}{of}") for it, (content, number, at) in LENGTHS.items()),
    ]


SIZED = f"{RUN.options()}"
RUNS = ["explore", "why", "cure", "page"]
VERIFY = Row("verify", "verify p --sectors 4", {"p": ZERO}, "accepted budget 2\n")
LIST = Row("list", "list p", {"p": ZERO}, "mov64 r0, 0\nexit\n")
CHECK = Row("check", "check p image", {"p": ZERO, "image": bytes(SECTOR)}, "crash check 1\nsectors 1 epoch 0 marks 0\nprogram slots 2 budget 2\nsteps 2\nanswer 0 codes -\n")
MANY = Checker("slots 4096 budget 4096", zero)

AS_PROGRAM = [
    *(row for it in RUNS for row in as_program(ANSWERS[it], "p0", 1, " of program 0")),
    *(row for it in RUNS for row in as_program(ANSWERS[it], "p1", 2, " of program 1")),
    *as_program(VERIFY, "p", 0, ""),
    *as_program(LIST, "p", 0, ""),
    *as_program(CHECK, "p", 0, ""),
    replace(VERIFY, name="inputs: 4,096 slots as p, verify", files={"p": LONGEST}, out="accepted budget 4096\n"),
    replace(LIST, name="inputs: 4,096 slots as p, list", files={"p": LONGEST}, out="mov64 r0, 0\n" * 4095 + "exit\n"),
    replace(CHECK, name="inputs: 4,096 slots as p, check", files={**CHECK.files, "p": LONGEST}, out=CHECK.out.replace("slots 2 budget 2", "slots 4096 budget 4096").replace("steps 2", "steps 4096")),
    Row("inputs: 4,096 slots as p0, explore", f"explore log p0 {SIZED}", {**ANSWERS["explore"].files, "p0": LONGEST}, Long(lambda: explored(RUN, [MANY]))),
]

LINED = replace(CHECK, words="check p image --lines lines", files={**CHECK.files, "lines": b""})
AS_LINES = [
    *unreadable(LINED, "lines", "refused 14 at 2"),
    *of_kinds(LINED, "lines", {it: "refused 14 at 2" for it in KINDS}),
    answered(LINED, "no bytes", "lines", b""),
    answered(LINED, "1 MiB", "lines", b"9 " + b"x" * (MIB - 5) + b" 1\n"),
    no_answer(LINED, "a byte more than 1 MiB", "lines", b"9 " + b"x" * (MIB - 4) + b" 1\n", "refused 14 at 2"),
    no_answer(LINED, "1 GiB", "lines", Hole(1 << 30), "refused 14 at 2"),
]

# What the device held before entry 0: bytes of any kind, as many as the device has

HELD = noise("inputs", 4)
SHORTER = Run(RUN.recorded, 4, base=HELD[:-1])
AS_IMAGE = Run(RUN.recorded, 4, base=KINDS["a program"])


def place_of_base(row):
    """The number of a command's other files, which is the place of the file of --base."""
    return sum(it in row.files and it != "base" for it in row.words.split()[1:])


AS_BASE = [
    row
    for it in ANSWERS.values()
    for row in [
        *unreadable(it, "base", f"refused 14 at {place_of_base(it)}"),
        no_answer(it, "a byte more than the device", "base", HELD + b"\0", "refused 13 at 14"),
        no_answer(it, "1 GiB", "base", Hole(1 << 30), "refused 13 at 14"),
    ]
]
AS_BASE += [*ANSWERS.values()]
AS_BASE = [replace(it, name=f"inputs: as long as the device as base, {it.words.split()[0]}") if it in ANSWERS.values() else it for it in AS_BASE]
for what, run in {"a byte less than the device": SHORTER, "a program": AS_IMAGE}.items():
    for it in [modelled("inputs", run)[0], explained("inputs", run), *shown("inputs", run, [NUMBER]), in_words(run)[-1]]:
        AS_BASE.append(replace(it, name=f"inputs: {what} as base, {it.words.split()[0]}", files={**it.files, "base": run.base}))

# Parts

PARTS = [part(RUN, CHECKERS[:1], *it, 5, False).encode() for it in layout(count(RUN), 2)]
JOIN = Row("join", "join t0 t1", {"t0": PARTS[0], "t1": PARTS[1]}, Long(lambda: report(RUN, CHECKERS[:1], False)), 1)
NO_PART = {it: "refused 61 at 1" for it in KINDS if it != "a part"}
FULL = filled(PART_LINE.encode(), MOST_PARTS - len(PARTS[0]))

AS_PART = [
    replace(JOIN, name="inputs: two parts"),
    *unreadable(JOIN, "t0", "refused 14 at 0"),
    *unreadable(JOIN, "t1", "refused 14 at 1"),
    *of_kinds(JOIN, "t1", NO_PART),
    # a byte more is a row of rows/joining.py
    replace(no_answer(JOIN, "1 GiB with the first", "t1", FULL, "refused 61 at 1"), seconds=180),
]


# Assembly texts

def text_of(length):
    """A text of that many bytes, of which the last line but one is the program, and the last one a comment."""
    said = "mov64 r0, 0\nexit\n;"
    return Long(lambda: said + "x" * (length - len(said)))


ASM = Row("asm", "asm s", {"s": "mov64 r0, 0\nexit\n"}, ZERO)
NO_TEXT = {
    # the first line begins with no instruction, or isn't UTF-8
    "a log": "refused 14 at 0" if any(it >= 0x80 for it in KINDS["a log"]) else "refused 30 at 1",
    "a program": "refused 14 at 0",
    "a part": "refused 30 at 1",
    "a report": "refused 30 at 1",
    "an image": "refused 30 at 1",
    "an object file": "refused 30 at 1",
}
assert ZERO[0] == 0xB7

AS_TEXT = [
    *unreadable(ASM, "s", "refused 14 at 0"),
    *of_kinds(ASM, "s", NO_TEXT),
    answered(ASM, "16 MiB", "s", text_of(MOST_TEXT)),
    answered(ASM, "a byte less than 16 MiB", "s", text_of(MOST_TEXT - 1)),
    no_answer(ASM, "16 MiB and a byte", "s", text_of(MOST_TEXT + 1), "refused 14 at 0"),
]


# Raw logs: what is after the last entry, and after 192 MiB, changes no answer

RAW = raw(4096, [(0, 1, 0, bytes([0x11]) * 4096)])
IMPORT = Row("import", "import raw", {"raw": RAW}, log([W(0, 8, 0x11)]))
NO_RAW = {it: error for it, error in NO_LOG.items() if it != "a raw log"}
AS_RAW = [
    *unreadable(IMPORT, "raw", "refused 14 at 0"),
    *of_kinds(IMPORT, "raw", NO_RAW),
    *(answered(IMPORT, f"{it} bytes", "raw", filled(RAW, it)) for it in [MOST_RAW - 1, MOST_RAW, MOST_RAW + 1]),
    no_answer(IMPORT, "a byte too few", "raw", RAW[:-1], "refused 5 at 0"),
]


# Images: bytes of any kind that are whole sectors

AN_IMAGE = CHECK.out.replace("sectors 1", "sectors 16384")
AS_AN_IMAGE = [
    *unreadable(CHECK, "image", "refused 14 at 1"),
    *of_kinds(CHECK, "image", {it: "refused 14 at 1" for it in ["a program", "an assembly text", "a part", "a report", "an object file"]}),
    replace(answered(CHECK, "8 MiB", "image", Hole(MOST_IMAGE)), out=AN_IMAGE),
    no_answer(CHECK, "a byte less than 8 MiB", "image", Hole(MOST_IMAGE - 1), "refused 14 at 1"),
    no_answer(CHECK, "8 MiB and a byte", "image", Hole(MOST_IMAGE + 1), "refused 14 at 1"),
    no_answer(CHECK, "8 MiB and a sector", "image", Hole(MOST_IMAGE + SECTOR), "refused 14 at 1"),
]
assert all(len(KINDS[it]) % SECTOR for it in ["a program", "an assembly text", "a part", "a report", "an object file"])

ROWS = [*AS_LOG, *AS_PROGRAM, *AS_LINES, *AS_BASE, *AS_PART, *AS_TEXT, *AS_RAW, *AS_AN_IMAGE]
