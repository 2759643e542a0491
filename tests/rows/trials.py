"""`check`: what programs come to on one image, in how many steps, and the lines of the last ones (docs/OUTPUT.md, The text of
`check`). The steps, the registers and the answers are worked out by hand from docs/MACHINE.md."""
from dataclasses import replace

from lines_model import MOST_BYTES, MOST_LINES, first_bad_line, placed, table_of
from notation import SECTOR, Folder, Hole, Row, Something, code, lines, named, program, refused

from rows.notes import UNREACHED

FOUR = 4 * SECTOR
ZEROS = bytes(FOUR)
FIFTY_ONE = b"\x33" + bytes(FOUR - 1)
# image 34 of overwritten_sector (docs/CRASH-MODEL.md)
TORN = b"\x22" * 64 + b"\x11" * 448 + bytes(3 * SECTOR)
LARGEST = 16384 * SECTOR

GOOD = program("mov64 r0, 0; exit")
BAD = program("mov64 r0, 7; exit")
UNSAFE = program("exit")
CUT_PROGRAM = code("9500")


def tried(name, text, options, out, status, image=ZEROS, others={}):
    """A row of a program on an image; the text of the answer is given without its first line."""
    content = {"p": program(text) if type(text) is str else text, "image": image, **others}
    return Row(f"check: {name}", f"check p image {options}".strip(), content, "crash check 1\n" + lines(out), status)


def ended(name, text, options, head, steps, end, image=ZEROS):
    """A row of a program without lines of steps; `head` is how the second and the third line end."""
    about, size = head
    status = 0 if end.startswith("answer 0 ") else 1
    out = f"sectors {len(image) // SECTOR} {about}\nprogram slots {size}\nsteps {steps}\n{end}\n"
    return tried(name, text, options, out, status, image)


NONE_PASSED = "epoch 0 marks 0"
FIRST_BYTE = (NONE_PASSED, "7 budget 5")

ANSWERS = [
    ended("first_byte, 51", named("first_byte"), "", FIRST_BYTE, 5, "answer 51 codes -", FIFTY_ONE),
    ended("first_byte, 0", named("first_byte"), "", FIRST_BYTE, 5, "answer 0 codes -"),
    ended("first_byte on a torn image", named("first_byte"), "", FIRST_BYTE, 5, "answer 34 codes -", TORN),
    ended("byte_64 on a torn image", named("byte_64"), "", FIRST_BYTE, 5, "answer 17 codes -", TORN),
    ended("ends_agree, they don't", named("ends_agree"), "", (NONE_PASSED, "11 budget 9"), 9, "answer 1 codes -", FIFTY_ONE[:SECTOR]),
    ended("ends_agree, they do", named("ends_agree"), "", (NONE_PASSED, "11 budget 9"), 8, "answer 0 codes -"),
    ended("marks_passed, none", named("marks_passed"), "", (NONE_PASSED, "2 budget 2"), 2, "answer 0 codes -"),
    ended("marks_passed, 7", named("marks_passed"), "--marks 7", ("epoch 0 marks 7", "2 budget 2"), 2, "answer 7 codes -"),
    ended(
        "the most marks and flushes",
        "ldxdw r0, [r1+16]; ldxdw r2, [r1+8]; add64 r0, r2; exit",
        "--epoch 65536 --marks 65536",
        ("epoch 65536 marks 65536", "4 budget 4"),
        4,
        "answer 131072 codes -",
    ),
    ended("the epoch", "ldxdw r0, [r1+8]; exit", "--epoch 3 --marks 2", ("epoch 3 marks 2", "2 budget 2"), 2, "answer 3 codes -"),
    *(
        ended(f"an image of {it} sectors", "ldxdw r0, [r1+0]; exit", "", (NONE_PASSED, "2 budget 2"), 2, f"answer {it} codes -", bytes(it * SECTOR))
        for it in [1, 2, 3, 16383, 16384]
    ),
    ended(
        "the last byte of a largest image",
        "mov64 r1, 16383; call 1; jne r0, 0, +2; mov64 r0, 0; exit; ldxb r0, [r0+511]; exit",
        "",
        FIRST_BYTE,
        5,
        "answer 9 codes -",
        bytes(LARGEST - 1) + b"\x09",
    ),
    ended("no sector after the last", "mov64 r1, 4; call 1; jne r0, 0, +2; mov64 r0, 3; exit; ldxb r0, [r0+0]; exit", "", FIRST_BYTE, 5, "answer 3 codes -"),
    # two codes; then 16 of 17
    ended(
        "codes",
        "mov64 r1, 5; call 4; mov64 r1, 0; call 4; mov64 r0, 1; exit",
        "",
        (NONE_PASSED, "6 budget 6"),
        6,
        "answer 1 codes 5,0",
    ),
    ended(
        "sixteen codes",
        "".join(f"mov64 r1, {it}; call 4; " for it in range(17)) + "exit",
        "",
        (NONE_PASSED, "35 budget 35"),
        35,
        f"answer 1 codes {','.join(map(str, range(16)))}",
    ),
    ended("codes of a good image", "mov64 r1, 6; call 4; exit", "", (NONE_PASSED, "3 budget 3"), 3, "answer 0 codes 6"),
    ended("the greatest answer", "mov64 r0, -1; exit", "", (NONE_PASSED, "2 budget 2"), 2, f"answer {2**64 - 1} codes -"),
]

# Each turn takes three steps, and the call answers 0 after the last of them: 3 * (turns + 1) + 1 steps.
TURNS = "mov64 r1, 1000; call 3; jne r0, 0, -3; exit"

LIMITS = [
    ended("nested_loops, a step short", named("nested_loops"), "--checked 28", (NONE_PASSED, "9 limit 28"), 28, "out of steps"),
    ended("nested_loops, enough", named("nested_loops"), "--checked 29", (NONE_PASSED, "9 limit 29"), 29, "answer 0 codes -"),
    ended("no step at all", GOOD, "--checked 0", (NONE_PASSED, "2 limit 0"), 0, "out of steps"),
    ended("one step", GOOD, "--checked 1", (NONE_PASSED, "2 limit 1"), 1, "out of steps"),
    ended("all steps", GOOD, "--checked 2", (NONE_PASSED, "2 limit 2"), 2, "answer 0 codes -"),
    ended("the greatest limit", GOOD, "--checked 1000000000", (NONE_PASSED, "2 limit 1000000000"), 2, "answer 0 codes -"),
    ended("turns", TURNS, "--checked 5000", (NONE_PASSED, "4 limit 5000"), 3004, "answer 0 codes -"),
    ended("turns, a step short", TURNS, "--checked 3003", (NONE_PASSED, "4 limit 3003"), 3003, "out of steps"),
    ended("a loop without end", "ja -1", "--checked 1000", (NONE_PASSED, "1 limit 1000"), 1000, "out of steps"),
    ended("what the verifier refuses", UNSAFE, "--checked 5", (NONE_PASSED, "1 limit 5"), 1, "fault 81 slot 0"),
    ended("a fault after a step", "mov64 r0, 1; ja +1", "--checked 5", (NONE_PASSED, "2 limit 5"), 2, "fault 80 slot 1"),
    ended("no code is told of a fault", "mov64 r1, 5; call 4; stb [r10+0], 1", "--checked 5", (NONE_PASSED, "3 limit 5"), 3, "fault 83 slot 2"),
]

CALLED = "mov64 r6, 5; callf +1; exit; mov64 r0, 9; exit"
HEAD = "sectors 4 epoch 0 marks 0\nprogram slots "
LAST_TURNS = """
    step 3002 slot 1 call 3; r0 0; r1 unset
    step 3003 slot 2 jne r0, 0, -3
    step 3004 slot 3 exit
    """
# How a word is printed, at the ends of the regions' addresses
WORDS = {
    0: "0",
    2**32 - 1: "4294967295",
    2**32: "context+0",
    2**32 + 31: "context+31",
    2**33 - 1: "context+4294967295",
    2**33: "stack 0+0",
    2**33 + 512: "stack 0+512",
    2**33 + 1023: "stack 0+1023",
    2**33 + 1024: "stack 1+0",
    3 * 2**32 - 1: "stack 4194303+1023",
    3 * 2**32: "sector 0+0",
    3 * 2**32 + 1024 * 3 + 17: "sector 3+17",
    3 * 2**32 + 1024 * 16384 - 1: "sector 16383+1023",
    3 * 2**32 + 1024 * 16384: "12901679104",
    2**64 - 1: "18446744073709551615",
}

# Words with `--large`, where a device has more sectors
LARGE_WORDS = {
    3 * 2**32 + 1024 * 16384: "sector 16384+0",
    3 * 2**32 + 1024 * 2**25 - 1: "sector 33554431+1023",
    3 * 2**32 + 1024 * 2**25: "47244640256",
}


def worded(word, shown, more=""):
    """A row of a program that puts a word into a register, and how the word is printed."""
    out = f"4 budget 3\nstep 1 slot 0 lddw r2, {word}; r2 {shown}\nstep 2 slot 2 mov64 r0, 0; r0 0\nstep 3 slot 3 exit\nsteps 3\nanswer 0 codes -\n"
    return tried(f"the word {word}{more}", f"lddw r2, {word}; mov64 r0, 0; exit", f"--trace 9{more}", HEAD + out, 0)


STEPS = [
    tried(
        "first_byte, step by step",
        named("first_byte"),
        "--trace 9",
        """
        sectors 4 epoch 0 marks 0
        program slots 7 budget 5
        step 1 slot 0 mov64 r1, 0; r1 0
        step 2 slot 1 call 1; r0 sector 0+0; r1 unset
        step 3 slot 2 jne r0, 0, +2
        step 4 slot 5 ldxb r0, [r0+0]; r0 51
        step 5 slot 6 exit
        steps 5
        answer 51 codes -
        """,
        1,
        FIFTY_ONE,
    ),
    tried(
        "the last two steps",
        named("first_byte"),
        "--trace 2",
        """
        sectors 4 epoch 0 marks 0
        program slots 7 budget 5
        step 4 slot 5 ldxb r0, [r0+0]; r0 0
        step 5 slot 6 exit
        steps 5
        answer 0 codes -
        """,
        0,
    ),
    *(
        tried(
            f"as many steps as there are, {number}",
            GOOD,
            f"--trace {number}",
            HEAD + "2 budget 2\nstep 1 slot 0 mov64 r0, 0; r0 0\nstep 2 slot 1 exit\nsteps 2\nanswer 0 codes -\n",
            0,
        )
        for number in [2, 3, 2**32, 2**64 - 1]
    ),
    tried("no lines", GOOD, "--trace 0", HEAD + "2 budget 2\nsteps 2\nanswer 0 codes -\n", 0),
    tried("a fault", UNSAFE, "--checked 5 --trace 1", HEAD + "1 limit 5\nstep 1 slot 0 exit\nsteps 1\nfault 81 slot 0\n", 1),
    tried(
        "the steps up to a fault",
        "mov64 r0, 1; ja +1",
        "--checked 5 --trace 5",
        HEAD + "2 limit 5\nstep 1 slot 0 mov64 r0, 1; r0 1\nstep 2 slot 1 ja +1\nsteps 2\nfault 80 slot 1\n",
        1,
    ),
    tried("out of steps", "ja -1", "--checked 9 --trace 2", HEAD + "1 limit 9\nstep 8 slot 0 ja -1\nstep 9 slot 0 ja -1\nsteps 9\nout of steps\n", 1),
    tried("the steps of turns", TURNS, "--checked 5000 --trace 3", HEAD + "4 limit 5000\n" + lines(LAST_TURNS) + "steps 3004\nanswer 0 codes -\n", 0),
    tried(
        "a local function",
        CALLED,
        "--checked 9 --trace 9",
        """
        sectors 4 epoch 0 marks 0
        program slots 5 limit 9
        step 1 slot 0 mov64 r6, 5; r6 5
        step 2 slot 1 callf +1; r6 unset; r10 stack 1+512
        step 3 slot 3 mov64 r0, 9; r0 9
        step 4 slot 4 exit; r1 unset; r6 5; r10 stack 0+512
        step 5 slot 2 exit
        steps 5
        answer 9 codes -
        """,
        1,
    ),
    tried(
        "a step that changes no register",
        "mov64 r0, 0; mov64 r0, 0; stdw [r10-8], 3; ldxdw r0, [r10-8]; mov64 r0, r0; exit",
        "--trace 5",
        """
        sectors 4 epoch 0 marks 0
        program slots 6 budget 6
        step 2 slot 1 mov64 r0, 0
        step 3 slot 2 stdw [r10-8], 3
        step 4 slot 3 ldxdw r0, [r10-8]; r0 3
        step 5 slot 4 mov64 r0, r0
        step 6 slot 5 exit
        steps 6
        answer 3 codes -
        """,
        1,
    ),
    tried(
        "what a helper unsets",
        "mov64 r2, 1; mov64 r3, 2; mov64 r4, 3; mov64 r5, 4; mov64 r6, 5; mov64 r1, 0; call 5; exit",
        "--trace 3",
        """
        sectors 4 epoch 0 marks 0
        program slots 8 budget 8
        step 6 slot 5 mov64 r1, 0; r1 0
        step 7 slot 6 call 5; r0 1; r1 unset; r2 unset; r3 unset; r4 unset; r5 unset
        step 8 slot 7 exit
        steps 8
        answer 1 codes -
        """,
        1,
    ),
    *(worded(word, shown) for word, shown in WORDS.items()),
    *(worded(word, shown, " --large") for word, shown in LARGE_WORDS.items()),
]

# With guards: where a run strays, by which register, and what a local has that wasn't written
POINTED = "mov64 r1, r10; callf +1; exit; "
GUARDED = [
    tried(
        "a read past a sector's end strays",
        "mov64 r1, 0; call 1; ldxdw r2, [r0+508]; mov64 r0, 0; exit",
        "--guards --trace 9",
        """
        sectors 4 epoch 0 marks 0
        program slots 5 budget 5 guards 1
        step 1 slot 0 mov64 r1, 0; r1 0
        step 2 slot 1 call 1; r0 sector 0+0; r1 unset
        step 3 slot 2 ldxdw r2, [r0+508]; stray by r0 at sector 0+508 bytes 8
        steps 3
        stray at slot 2
        """,
        1,
    ),
    tried(
        "a read with its sign at address 0 strays",
        "mov64 r1, 4; call 1; ldxsh r2, [r0+1]; mov64 r0, 0; exit",
        "--guards --trace 1",
        """
        sectors 4 epoch 0 marks 0
        program slots 5 budget 5 guards 1
        step 3 slot 2 ldxsh r2, [r0+1]; stray by r0 at 1 bytes 2
        steps 3
        stray at slot 2
        """,
        1,
    ),
    tried(
        "a store to the frame of a caller strays",
        POINTED + "stb [r1-1], 5; mov64 r0, 0; exit",
        "--guards --trace 2",
        """
        sectors 4 epoch 0 marks 0
        program slots 6 budget 6 guards 1
        step 2 slot 1 callf +1; r10 stack 1+512
        step 3 slot 3 stb [r1-1], 5; stray by r1 at stack 0+511 bytes 1
        steps 3
        stray at slot 3
        """,
        1,
    ),
    tried(
        "a store to the context strays",
        "stxw [r1+8], r1; mov64 r0, 0; exit",
        "--guards --trace 2",
        """
        sectors 4 epoch 0 marks 0
        program slots 3 budget 3 guards 1
        step 1 slot 0 stxw [r1+8], r1; stray by r1 at context+8 bytes 4
        steps 1
        stray at slot 0
        """,
        1,
    ),
    tried(
        "a copy to the frame of a caller strays",
        POINTED + "mov64 r2, r1; sub64 r2, 16; mov64 r1, 0; mov64 r3, 16; call 2; exit",
        "--guards --trace 1",
        """
        sectors 4 epoch 0 marks 0
        program slots 9 budget 9 guards 1
        step 7 slot 7 call 2; stray by r2 at stack 0+496 bytes 16
        steps 7
        stray at slot 7
        """,
        1,
    ),
    # the caller reads what it wrote; no local of a frame is left of an earlier call
    tried(
        "a local that wasn't written is 0",
        "callf +3; callf +2; ldxdw r0, [r10-8]; exit; ldxdw r0, [r10-8]; stdw [r10-8], 7; exit",
        "--guards --trace 20",
        """
        sectors 4 epoch 0 marks 0
        program slots 7 budget 10 guards 0
        step 1 slot 0 callf +3; r10 stack 1+512
        step 2 slot 4 ldxdw r0, [r10-8]; r0 0
        step 3 slot 5 stdw [r10-8], 7
        step 4 slot 6 exit; r1 unset; r10 stack 0+512
        step 5 slot 1 callf +2; r0 unset; r10 stack 1+512
        step 6 slot 4 ldxdw r0, [r10-8]; r0 0
        step 7 slot 5 stdw [r10-8], 7
        step 8 slot 6 exit; r10 stack 0+512
        step 9 slot 2 ldxdw r0, [r10-8]
        step 10 slot 3 exit
        steps 10
        answer 0 codes -
        """,
        0,
    ),
    ended("accepted without guards", named("first_byte"), "--guards", (NONE_PASSED, "7 budget 5 guards 0"), 5, "answer 51 codes -", FIFTY_ONE),
    ended("no trace of a stray", "ldxb r0, [r10+0]; exit", "--guards", (NONE_PASSED, "2 budget 2 guards 1"), 1, "stray at slot 0"),
    refused("check: with guards too it is refused", "check p image --guards", {"p": UNSAFE, "image": ZEROS}, "refused 50 at 0"),
]

# Words that ask for what isn't there, on a good program and a good image, and the refusal
REFUSED = {
    "check p image --epoch 65537": "13 at 15",
    "check p image --marks 65537": "13 at 16",
    "check p image --epoch 4294967296": "13 at 15",
    "check p image --marks 18446744073709551615": "13 at 16",
    "check p image --checked 1000000001": "13 at 5",
    "check p image --checked 1000000001 --marks 65537": "13 at 16",
    "check p image --marks 65537 --epoch 65537": "13 at 15",
    "check none image": "14 at 0",
    "check p none": "14 at 1",
    "check none others": "14 at 0",
    "check none others --epoch 65537": "13 at 15",
    "check p none --checked 1000000001": "13 at 5",
}

# Images of other sizes
SIZES = [0, 1, 511, 513, 1023, LARGEST + 1, LARGEST + SECTOR]

# What else is refused: the files, and the refusal
FAULTS = {
    "a program that the verifier refuses": (UNSAFE, ZEROS, "50 at 0"),
    "a program that is cut off": (CUT_PROGRAM, ZEROS, "20 at 0"),
    "an unknown instruction": (code("ff00000000000000"), ZEROS, "22 at 0"),
    "no program at all": (b"", ZEROS, "21 at 0"),
    "the size before the program": (CUT_PROGRAM, b"", "14 at 1"),
    "a loop without a bound": (program("ja -1"), ZEROS, "42 at 0"),
    "a test that is missing": (program("mov64 r1, 0; call 1; ldxb r0, [r0+0]; exit"), ZEROS, "52 at 2"),
    "an image that is a folder": (GOOD, Folder(), "14 at 1"),
    "an image that is far too large": (GOOD, Hole(1 << 40), "14 at 1"),
}

REACHED = "crash check 1\n" + HEAD + "3 budget 2\nsteps 2\nanswer 0 codes -\n"
NOT_REACHED = f"instructions that no run reaches: 1, the first at slot 2; {UNREACHED}"
WHOLE = "an image has 1 to 16384 whole sectors of 512 bytes, with --large to 33554432 (docs/COMMANDS.md, Commands)"

# What is noted: the files, and the refusal with its notes
NOTED = [
    ("an empty image", GOOD, b"", "refused 14 at 1", "image is no image", "it has 0 bytes", WHOLE),
    ("an image that is cut within a sector", GOOD, bytes(700), "refused 14 at 1", "image is no image", "it has 700 bytes", WHOLE),
    ("an image that is too large", GOOD, bytes(LARGEST + SECTOR), "refused 14 at 1", "image is no image", "it has more than 8388608 bytes", WHOLE),
    ("an image that is a folder", GOOD, Folder(), "refused 14 at 1", "image can't be read"),
]

# Lines of C: the places that follow slots. Each text is that without the option, with the places that the model puts in.
C_LINES = b"0 check.c 3\n1 check.c 4\n2 check.c 4\n5 lib/check.h 1234567890\n9 no_slot.c 1\n"


def lined(name, row, content):
    """A row of a program on an image, with lines of C."""
    return replace(row, name=f"check: lines of C, {name}", words=f"{row.words} --lines lines", files={**row.files, "lines": content}, out=placed(row.out, table_of(content)))


def named_row(name):
    """The row of that name among those above."""
    return next(it for it in [*ANSWERS, *LIMITS, *STEPS, *GUARDED] if it.name == f"check: {name}")


LINED = [
    tried(
        "lines of C, by hand",
        named("first_byte"),
        "--trace 9 --lines lines",
        """
        sectors 4 epoch 0 marks 0
        program slots 7 budget 5
        step 1 slot 0 mov64 r1, 0; r1 0 # check.c:3
        step 2 slot 1 call 1; r0 sector 0+0; r1 unset # check.c:4
        step 3 slot 2 jne r0, 0, +2 # check.c:4
        step 4 slot 5 ldxb r0, [r0+0]; r0 51 # lib/check.h:1234567890
        step 5 slot 6 exit
        steps 5
        answer 51 codes -
        """,
        1,
        FIFTY_ONE,
        {"lines": C_LINES},
    ),
    tried("lines of C, a fault by hand", UNSAFE, "--checked 5 --trace 1 --lines lines", HEAD + "1 limit 5\nstep 1 slot 0 exit # check.c:3\nsteps 1\nfault 81 slot 0 # check.c:3\n", 1, ZEROS, {"lines": C_LINES}),
    tried("lines of C, a stray by hand", "stxw [r1+8], r1; mov64 r0, 0; exit", "--guards --trace 2 --lines lines", HEAD + "3 budget 3 guards 1\nstep 1 slot 0 stxw [r1+8], r1; stray by r1 at context+8 bytes 4 # check.c:3\nsteps 1\nstray at slot 0 # check.c:3\n", 1, ZEROS, {"lines": C_LINES}),
    *(
        lined(f"{name}, {what}", named_row(name), content)
        for name in [
            "first_byte, 51",
            "first_byte, step by step",
            "the last two steps",
            "a fault",
            "a fault after a step",
            "the steps up to a fault",
            "out of steps",
            "a local function",
            "a step that changes no register",
            "a read past a sector's end strays",
            "a store to the frame of a caller strays",
        ]
        for what, content in [("some slots", C_LINES), ("none", b""), ("the last slots", b"2 a 7\n3 b.c 8\n4 c 9\n5 d 10\n6 e 11\n")]
    ),
    *(
        lined(name, named_row("first_byte, step by step"), content)
        for name, content in {
            "in another order": b"5 b.c 2\n0 a.c 1\n",
            "two of a slot": b"0 first.c 1\n0 second.c 2\n",
            "each printable character": b"0 " + bytes(range(33, 127)) + b" 1\n",
            "the greatest numbers": b"9999999999 a.c 9999999999\n5 a.c 9999999999\n",
            "as many as there may be": b"9 a.c 1\n" * (MOST_LINES - 1) + b"6 last.c 7\n",
            "as many bytes as there may be": b"6 " + b"x" * (MOST_BYTES - 5) + b" 1\n",
        }.items()
    ),
]

# Texts that are no lines of C.
BAD_LINES = {
    "no newline at the end": b"0 a.c 1\n1 a.c 2",
    "an empty line": b"0 a.c 1\n\n1 a.c 2\n",
    "a newline alone": b"\n",
    "a word alone": b"0\n",
    "two words": b"0 a.c\n",
    "four words": b"0 a.c 1 2\n",
    "a blank in front": b" 0 a.c 1\n",
    "a blank at the end": b"0 a.c 1 \n",
    "two blanks": b"0  a.c 1\n",
    "a tab": b"0\ta.c\t1\n",
    "a carriage return": b"0 a.c 1\r\n",
    "line 0": b"0 a.c 0\n",
    "a zero in front of a line": b"0 a.c 01\n",
    "a zero in front of a slot": b"00 a.c 1\n",
    "a slot with a sign": b"+1 a.c 1\n",
    "a slot below 0": b"-1 a.c 1\n",
    "a slot that is a word": b"one a.c 1\n",
    "a line that is a word": b"1 a.c one\n",
    "a digit with a letter": b"1 a.c 1a\n",
    "a slot of eleven digits": b"10000000000 a.c 1\n",
    "a line of eleven digits": b"1 a.c 10000000000\n",
    "a control character": b"0 a\x1b.c 1\n",
    "the byte after the printable ones": b"0 a\x7f 1\n",
    "a character beyond ASCII": "0 \u00e4.c 1\n".encode(),
    "bytes that are no UTF-8": b"0 a.c 1\n1 \xff.c 1\n",
    "bytes that are no UTF-8 after a bad line": b"0 a.c 1\nx\n1 \xff.c 1\n",
    "bytes that are no UTF-8 at the end": b"0 a.c 1\n\xff",
    "a zero byte": b"\0",
    "a program": code("b7000000000000009500000000000000"),
    "a line too many": b"9 a.c 1\n" * (MOST_LINES + 1),
    "a byte too many, and a line that says nothing": b"x\n" + b"6 " + b"x" * MOST_BYTES + b" 1\n",
    "a byte too many": b"6 " + b"x" * (MOST_BYTES - 4) + b" 1\n",
    "a line too many, and one that says nothing": b"9 a.c 1\n" * (MOST_LINES + 1) + b"x\n",
}


def no_lines(name, content):
    """A row of a text that is no lines of C, with the notes that name its first bad line."""
    number = first_bad_line(content)
    assert table_of(content) is None
    why = f"line {number} is not 'SLOT FILE LINE' (docs/CHECKERS.md, CHECK.lines)" if number else "it has at most 1048576 bytes and 65536 lines (docs/CHECKERS.md, CHECK.lines)"
    return Row(f"notes: check: lines of C, {name}", "check p image --lines lines", {"p": GOOD, "image": ZEROS, "lines": content}, status=2, error="refused 14 at 2", notes=("lines is not a list of lines of C", why))


# The order of refusals: words, then the files that can't be read, then the image, the lines and the program.
LINES_IN_ORDER = {
    "words": ("check p image --lines gone --marks 65537", "13 at 16"),
    "the program can't be read": ("check gone gone2 --lines gone3", "14 at 0"),
    "the image can't be read": ("check p gone --lines gone2", "14 at 1"),
    "the lines can't be read": ("check cut bad --lines gone", "14 at 2"),
    "the image": ("check cut bad --lines nothing", "14 at 1"),
    "the lines": ("check cut image --lines nothing", "14 at 2"),
    "the program": ("check cut image --lines lines", "20 at 0"),
}
LINES_FILES = {"p": GOOD, "image": ZEROS, "bad": bytes(5), "cut": CUT_PROGRAM, "nothing": b"x\n", "lines": C_LINES}

FAULTY = [
    "check p image --lines",
    "check p image --lines image --lines image",
    "explore p image --lines image",
    "check",
    "check p",
    "check p image image",
    "check p image --sectors 4",
    "check p image --epoch",
    "check p image --epoch one",
    "check p image --epoch -1",
    "check p image --epoch +1",
    "check p image --epoch 01",
    "check p image --marks +0",
    "check p image --marks 00",
    "check p image --trace +1",
    "check p image --trace 01",
    "check p image --checked +5",
    "check p image --checked 05",
    "check p image --marks 1.5",
    "check p image --trace all",
    "check p image --trace 18446744073709551616",
    "check p image --checked",
    "check p image --checked 5 --guards",
    "check p image --workers 1",
    "check p image --cuts all",
    "check p image --tears",
    "check p image --first",
    "check p image --progress",
    "verify p --sectors 4 --trace 1",
    "list p --epoch 1",
]

BOTH = {"p": GOOD, "image": ZEROS}

ROWS = [
    *ANSWERS,
    *LIMITS,
    *STEPS,
    *GUARDED,
    *LINED,
    *(no_lines(name, content) for name, content in BAD_LINES.items()),
    *(refused(f"check: lines of C, refused for {name}", words, LINES_FILES, f"refused {error}") for name, (words, error) in LINES_IN_ORDER.items()),
    *(refused(f"refused: {words}", words, BOTH, f"refused {error}") for words, error in REFUSED.items()),
    *(refused(f"check: an image of {it} bytes", "check p image", {"p": GOOD, "image": bytes(it)}, "refused 14 at 1") for it in SIZES),
    *(refused(f"check: {name}", "check p image", {"p": p, "image": image}, f"refused {error}") for name, (p, image, error) in FAULTS.items()),
    *(Row(f"notes: check: {name}", "check p image", {"p": p, "image": image}, status=2, error=error, notes=notes) for name, p, image, error, *notes in NOTED),
    Row("notes: check: what no run reaches", "check p image", {"p": program("mov64 r0, 0; exit; exit"), "image": ZEROS}, REACHED, notes=(NOT_REACHED,)),
    refused("check: a program that is cut off, checked", "check p image --checked 5", {"p": CUT_PROGRAM, "image": ZEROS}, "refused 20 at 0"),
    *(Row(f"fault of the command line: {words}", words, BOTH, status=2, error=Something()) for words in FAULTY),
    Row("help: check --help", "check --help", {}, Something()),
]
