"""Files without end, files larger than memory, and pipes: no more of them is read than can be used.

Each of these runs has a second of processor time and 200 MB, as the system counts a process's addresses.
"""
from notation import F, Hole, Long, Row, W, code, log, program, refused

GOOD = program("mov64 r0, 0; exit")
LOG = [W(0, 1, 0xAA), F]
WORKED = {"log": log(LOG), "good": GOOD}

MIB = 1 << 20
GIB = 1 << 30

# The most bytes of a program, of a log and of a program that is no regular file, and of an assembly text.
SLOTS = 8 * 4096
LONG = 64 * MIB
TEXT = 16 * MIB

# The instructions of long programs.
MOV, EXIT = code("b700000000000000"), code("9500000000000000")


def whole(length):
    """A program of that many bytes, of which the last one is an exit, cut off where that is no multiple of 8."""
    return Long(lambda: (MOV * (length // 8 - 1) + EXIT + MOV)[:length])


ENDLESS = {"/dev/zero": "narrow", "pipe": "endless", "hole": "narrow"}


def endless(command, error, notes=None):
    """A run of a command on each of the endless files, `FILE` in its words: it is refused so."""
    return [
        Row(
            f"{command.replace('FILE', name)}, without end",
            command.replace("FILE", name),
            {**WORKED, **({"hole": Hole(10 * GIB)} if name == "hole" else {})},
            status=2,
            error=error,
            to=to,
            notes=notes and [note.replace("FILE", name) for note in notes],
        )
        for name, to in ENDLESS.items()
    ]


NO_TEXT = ["FILE can't be read", "an assembly text has at most 16777216 bytes (docs/COMMANDS.md, How files are read)"]

WITHOUT_END = [
    *endless("explore FILE good --sectors 4", "refused 10 at 0"),
    *endless("why FILE good --sectors 4", "refused 10 at 0"),
    *endless("cure FILE good --sectors 4", "refused 10 at 0"),
    *endless("page FILE good --sectors 4", "refused 10 at 0"),
    *endless("images FILE --sectors 4", "refused 10 at 0"),
    *endless("export FILE --sectors 4", "refused 10 at 0"),
    *endless("log FILE", "refused 10 at 0"),
    *endless("image FILE 0 --sectors 4", "refused 10 at 0"),
    *endless("show FILE 0 --sectors 4", "refused 10 at 0"),
    *endless("explore log FILE --sectors 4", "refused 21 at 0 of program 0"),
    *endless("explore log good FILE --sectors 4", "refused 21 at 0 of program 1"),
    *endless("verify FILE --sectors 4", "refused 21 at 0"),
    *endless("list FILE", "refused 21 at 0"),
    *endless("asm FILE", "refused 14 at 0", NO_TEXT),
    *endless("import FILE", "refused 2 at 0"),
    # what is refused before
    *endless("explore FILE good --sectors 0", "refused 13 at 1"),
    *endless("explore log FILE gone --sectors 4", "refused 14 at 2"),
    *endless("explore log good FILE --sectors 4 --bound 4", "refused 13 at 2"),
]


def holed(words, content, error):
    """A run on a file that is larger than memory."""
    return Row(f"{words}, {content.zeros} zeros and {len(content.end)} bytes", words, {**WORKED, "hole": content}, status=2, error=error, to="narrow")


# The length of a regular file decides: 20 at the slot that is cut, else 21.
HOLES = [
    holed("verify hole --sectors 4", Hole(10 * GIB, b"\1\2\3"), f"refused 20 at {10 * GIB // 8}"),
    holed("list hole", Hole(10 * GIB + 7), f"refused 20 at {10 * GIB // 8}"),
    holed("explore log hole --sectors 4", Hole(10 * GIB + 9), f"refused 20 at {10 * GIB // 8 + 1} of program 0"),
    holed("explore log good good hole --sectors 4", Hole(3 * GIB + 1), f"refused 20 at {3 * GIB // 8} of program 2"),
    holed("list hole", Hole(LONG + 4), f"refused 20 at {LONG // 8}"),
    holed("list hole", Hole(LONG + 8), "refused 21 at 0"),
    holed("log hole", Hole(LONG + 1), "refused 10 at 0"),
    holed("log hole", Hole(LONG), "refused 2 at 0"),
    holed("asm hole", Hole(TEXT + 1), "refused 14 at 0"),
    holed("asm hole", Hole(TEXT), "refused 30 at 1"),
]

LENGTHS = [SLOTS - 1, SLOTS + 1, SLOTS + 7, SLOTS + 8, SLOTS + 9, SLOTS + 15, SLOTS + 16, MIB, MIB + 3, LONG - 1, LONG]


def of_length(length):
    """The refusal of a program of that many bytes."""
    return f"refused 20 at {length // 8}" if length % 8 else "refused 21 at 0"


# Programs near the limits as a regular file, and through a pipe.
LONG_PROGRAMS = [
    row
    for length in LENGTHS
    for row in [
        refused(f"list p, {length} bytes", "list p", {"p": whole(length)}, of_length(length)),
        Row(f"list pipe, {length} bytes", "list pipe", {"whole": whole(length)}, status=2, error=of_length(length), to="piped"),
    ]
]

# Through a pipe only as many bytes are counted as a log may have.
UNCOUNTED = [
    Row(f"list pipe, {length} bytes", "list pipe", {"whole": Hole(length)}, status=2, error="refused 21 at 0", to="piped")
    for length in [LONG + 1, LONG + 4, LONG + 8, LONG + 4096, 2 * LONG]
]

LISTED = "mov64 r0, 0\n" * 4095 + "exit\n"

SURVEY = """\
cut 0 epoch 0 marks 0 volatile 0 images 1
cut 1 epoch 0 marks 0 volatile 1 images 1
cut 2 epoch 1 marks 0 volatile 0 images 1
total 3
"""

PIPED = [
    Row("list pipe, 4,096 slots", "list pipe", {"whole": whole(SLOTS)}, LISTED, to="piped"),
    Row("verify pipe", "verify pipe --sectors 4", {"whole": GOOD}, "accepted budget 2\n", to="piped"),
    Row("asm pipe", "asm pipe", {"whole": "mov64 r0, 0\nexit\n"}, code("b7000000000000009500000000000000"), to="piped"),
    Row("images pipe", "images pipe --sectors 4 --bound 0", {"whole": log(LOG)}, SURVEY, to="piped"),
    Row("list pipe, nothing", "list pipe", {"whole": b""}, status=2, error="refused 21 at 0", to="piped"),
    Row("images pipe, nothing", "images pipe --sectors 4", {"whole": b""}, status=2, error="refused 1 at 0", to="piped"),
    Row("log pipe, 64 MiB", "log pipe", {"whole": Hole(LONG)}, status=2, error="refused 2 at 0", to="piped"),
    Row("log pipe, 64 MiB and a byte", "log pipe", {"whole": Hole(LONG + 1)}, status=2, error="refused 10 at 0", to="piped"),
    Row("asm pipe, 16 MiB", "asm pipe", {"whole": Hole(TEXT)}, status=2, error="refused 30 at 1", to="piped"),
    Row("asm pipe, 16 MiB and a byte", "asm pipe", {"whole": Hole(TEXT + 1)}, status=2, error="refused 14 at 0", to="piped"),
    # a text whose bytes are no characters keeps its note
    Row("asm pipe, no UTF-8", "asm pipe", {"whole": b"\xff"}, status=2, error="refused 14 at 0", notes=["pipe is no text in UTF-8"], to="piped"),
]

ROWS = [*WITHOUT_END, *HOLES, *LONG_PROGRAMS, *UNCOUNTED, *PIPED]
