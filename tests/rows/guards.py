"""`--guards`: programs that are accepted by the weaker rules, and what their runs come to (docs/VERIFIER.md and docs/MACHINE.md, both
'Guards'; docs/OUTPUT.md). Which slots are guarded was also found by a model of the rules."""
from notation import Row, Something, W, code, explore, files, lines, log, program, refused, report
from parts_model import number_of

EXIT_ALONE = "exit"
NULL_POINTER = "mov64 r1, 0; call 1; ldxb r0, [r0+0]; exit"
PAST_DEVICE = NULL_POINTER.replace("r1, 0", "r1, 4")
UNSET_BYTE = "ldxb r0, [r10-1]; exit"
UNSET_WORD = "ldxdw r0, [r10-8]; exit"
PAST_STACK = "ldxb r0, [r10+0]; exit"
POINTER = "mov64 r0, r1; exit"
WRITTEN_CONTEXT = "stb [r1+0], 1; mov64 r0, 0; exit"
HIGH_ADDRESS = "lddw r1, 18446744073709551615; ldxdw r0, [r1+0]; exit"
READS_CALLER = "mov64 r1, r10; callf +1; exit; ldxb r0, [r1-1]; exit"
WRITES_CALLER = "mov64 r1, r10; callf +1; exit; stb [r1-1], 5; mov64 r0, 0; exit"
NO_LENGTH = "mov64 r1, 0; mov64 r2, r10; ldxdw r3, [r10-8]; call 2; exit"
COPY_PAST_STACK = "mov64 r1, 0; mov64 r2, r10; mov64 r3, 8; call 2; exit"
COPY_TO_CONTEXT = "mov64 r2, r1; mov64 r1, 0; mov64 r3, 8; call 2; exit"
COMPARED = "jgt r1, r10, +0; mov64 r0, 0; exit"
# the first word of sector 0 is added to the address of the sector
INDEXED = "mov64 r1, 0; call 1; jne r0, 0, +2; mov64 r0, 0; exit; ldxdw r2, [r0+0]; add64 r0, r2; ldxb r0, [r0+0]; exit"
# the program's own memory, and the checksums
MEMORY = "lddw r1, 1099511627776; stb [r1+0], 5; ldxb r0, [r1+0]; exit"
LAST_BYTE = "lddw r1, 1099511693311; ldxb r0, [r1+0]; exit"
PAST_MEMORY = "lddw r1, 1099511693311; ldxh r0, [r1+0]; exit"
CRC32C = "mov64 r1, 1; mov64 r2, 0; mov64 r3, 1; call 8; exit"
CRC32 = CRC32C.replace("call 8", "call 9")
CRC32C_MEMORY = "mov64 r1, 1; lddw r2, 1099511627776; mov64 r3, 1; call 10; exit"
CRC32_STACK = "mov64 r1, 1; mov64 r2, r10; add64 r2, -8; mov64 r3, 8; call 11; exit"
CRC32_NOWHERE = "mov64 r1, 1; mov64 r2, 8; mov64 r3, 1; call 11; exit"
FIRST_BYTE = "mov64 r1, 0; call 1; jne r0, 0, +2; mov64 r0, 0; exit; ldxb r0, [r0+0]; exit"

# A program; the refusal without guards, or "" where it is accepted; and with them the budget, and the guarded slots with their
# instructions, or the refusal
ACCEPTED = [
    (NULL_POINTER, "52 at 2", 4, {2: "ldxb r0, [r0+0]"}),
    (PAST_DEVICE, "52 at 2", 4, {2: "ldxb r0, [r0+0]"}),
    (UNSET_BYTE, "51 at 0", 2, {}),
    (UNSET_WORD, "51 at 0", 2, {}),
    (PAST_STACK, "52 at 0", 2, {0: "ldxb r0, [r10+0]"}),
    (POINTER, "55 at 1", 2, {}),
    (COMPARED, "55 at 0", 3, {}),
    (WRITTEN_CONTEXT, "53 at 0", 3, {0: "stb [r1+0], 1"}),
    (HIGH_ADDRESS, "52 at 2", 3, {2: "ldxdw r0, [r1+0]"}),
    (READS_CALLER, "50 at 3", 5, {3: "ldxb r0, [r1-1]"}),
    (WRITES_CALLER, "50 at 3", 6, {3: "stb [r1-1], 5"}),
    (COPY_PAST_STACK, "52 at 3", 5, {3: "call 2"}),
    (COPY_TO_CONTEXT, "56 at 3", 5, {3: "call 2"}),
    (INDEXED, "54 at 6", 7, {7: "ldxb r0, [r0+0]"}),
    (FIRST_BYTE, "", 5, {}),
    (MEMORY, "52 at 2", 4, {}),
    (LAST_BYTE, "52 at 2", 3, {}),
    (PAST_MEMORY, "52 at 2", 3, {2: "ldxh r0, [r1+0]"}),
    (CRC32C, "58 at 3", 5, {}),
    (CRC32, "58 at 3", 5, {}),
    (CRC32C_MEMORY, "58 at 4", 5, {4: "call 10"}),
    (CRC32_STACK, "58 at 4", 6, {4: "call 11"}),
    (CRC32_NOWHERE, "58 at 3", 5, {3: "call 11"}),
]
REFUSED = {EXIT_ALONE: "50 at 0", NO_LENGTH: "56 at 3", "mov64 r10, 0; exit": "57 at 0", "call 8; exit": "50 at 0", "call 12; exit": "58 at 0", "mov64 r0, 0; jne r0, 1, -1; exit": "42 at 1"}


def told(text):
    return f"guards: {text}"


def verified_rows(text, without, budget, guarded):
    """The rows of `verify` on a program that is accepted with guards."""
    content = {"p": program(text)}
    head = f"accepted budget {budget} guards {len(guarded)}\n"
    listed = "".join(f"{slot}: {instruction}\n" for slot, instruction in guarded.items())
    words = "verify p --sectors 64"
    yield refused(told(f"without them, {text}"), words, content, f"refused {without}") if without else Row(told(f"without them, {text}"), words, content, f"accepted budget {budget}\n")
    yield Row(told(f"verify, {text}"), f"{words} --guards", content, head)
    yield Row(told(f"verify --list, {text}"), f"{words} --guards --list", content, head + listed)


EMPTY = "sectors 4 entries 0 cuts all bound 1 tears no first no\n"


def program_line(text):
    """The line of an accepted program: slots of straight text are as many as instructions, and one more for each `lddw`."""
    budget, guarded = next((budget, guarded) for it, _without, budget, guarded in ACCEPTED if it == text)
    return f"program 0 slots {len(text.split('; ')) + text.count('lddw')} budget {budget} guards {len(guarded)}\n"


def failing(ending):
    return f"image 0 cut 0 program 0 {ending} choice -\n"


# What these come to on a device of four sectors that are all zeros: an ending, or "" where the answer is 0
ENDINGS = {
    NULL_POINTER: "",
    PAST_DEVICE: "stray at slot 2",
    UNSET_BYTE: "",
    UNSET_WORD: "",
    PAST_STACK: "stray at slot 0",
    POINTER: f"answer {2**32} codes -",
    COMPARED: "",
    WRITTEN_CONTEXT: "stray at slot 0",
    HIGH_ADDRESS: "stray at slot 2",
    READS_CALLER: "",
    WRITES_CALLER: "stray at slot 3",
    COPY_PAST_STACK: "stray at slot 3",
    COPY_TO_CONTEXT: "stray at slot 3",
    INDEXED: "",
    FIRST_BYTE: "",
    MEMORY: "answer 5 codes -",
    LAST_BYTE: "",
    PAST_MEMORY: "stray at slot 2",
    # of the register 1 by the bits of the polynomials, written out apart
    CRC32C: "answer 4067132163 codes -",
    CRC32: "answer 1996959894 codes -",
    CRC32C_MEMORY: "answer 4067132163 codes -",
    CRC32_STACK: "answer 3433693342 codes -",
    CRC32_NOWHERE: "stray at slot 3",
}


def explored(text, options=""):
    """The report of a program on a log without entries."""
    ending = ENDINGS[text]
    lines_of = failing(ending) if ending else ""
    count = 1 if ending else 0
    whole = report("") + EMPTY + program_line(text) + lines_of + f"images 1 failing {count} lines {count}\n"
    return explore(told(f"explore{options}, {text}"), f"--sectors 4 --guards{options}", [], program(text), whole, count)


# With some content of sector 0 the index leads outside of it
STRAYS = report(
    """
    sectors 4 entries 1 cuts all bound 1 tears no first no
    program 0 slots 9 budget 7 guards 1
    image 1 cut 1 program 0 stray at slot 7 choice -
    images 3 failing 1 lines 1
    """
)
FULL = [W(0, 1, 0xAA)]
ON_A_LOG = [
    explore(told(f"an index from the disk{options}"), f"--sectors 4 --guards{options}", FULL, program(INDEXED), STRAYS, 1)
    for options in ["", " --cache 10", " --workers 4", " --workers 4 --cache 10"]
]
ON_A_LOG += [
    explore(
        told("an index from the disk, --first"),
        "--sectors 4 --guards --first",
        FULL,
        program(INDEXED),
        STRAYS.replace("first no", "first yes").replace("failing 1 lines 1", "first 1"),
        1,
    ),
    # a program that needs no guards answers as without them
    explore(
        told("a program that needs none"),
        "--sectors 4 --guards",
        FULL,
        [program(FIRST_BYTE), program(INDEXED)],
        report(
            """
            sectors 4 entries 1 cuts all bound 1 tears no first no
            program 0 slots 7 budget 5 guards 0
            program 1 slots 9 budget 7 guards 1
            image 1 cut 1 program 0 answer 170 codes - choice -
            image 1 cut 1 program 1 stray at slot 7 choice -
            images 3 failing 1 lines 2
            """
        ),
        1,
    ),
]

OTHERS = [
    Row(
        told("why"),
        "why log p0 --sectors 4 --guards",
        files([], program(PAST_DEVICE)),
        lines(
            """
            crash why 2
            sectors 4 entries 0 cuts all bound 1 tears no first no
            program 0 slots 4 budget 4 guards 1
            images 1 failing 1 lines 1
            program 0 failing 1 uncured 1
            cut 0 program 0 images 1 failing 1
            group where nothing is lost: 1 image, all stray at slot 2, as image 0 choice -
            """
        ),
        1,
    ),
    Row(
        told("cure"),
        "cure log p0 --sectors 4 --guards",
        files([], program(PAST_DEVICE)),
        lines(
            """
            crash cure 1
            sectors 4 entries 0 cuts all bound 1 tears no first no
            program 0 slots 4 budget 4 guards 1
            program 0 failing 1 uncured 1
            no flush cures image 0 cut 0 program 0 stray at slot 2 choice -
            images 1 failing 1 lines 1
            """
        ),
        1,
    ),
    Row(told("page"), "page log p0 --sectors 4 --guards", files(FULL, program(INDEXED)), Something(), 1),
    refused(told("a second program is refused"), "explore log p0 p1 --sectors 4 --guards", files([], program(NULL_POINTER), program(EXIT_ALONE)), "refused 50 at 0 of program 1"),
]

# NULL_POINTER of sector 4, as bytes: the number of a part's inputs is made of them
STRAYING = code("b701000004000000 8500000001000000 7100000000000000 9500000000000000")
PART = f"part 0..1 of 1 inputs {number_of([log([]), STRAYING])}\n" + EMPTY + program_line(PAST_DEVICE) + failing("stray at slot 2") + "images 1 failing 1 lines 1\n"
JOINED = report("") + EMPTY + program_line(PAST_DEVICE) + failing("stray at slot 2") + "images 1 failing 1 lines 1\n"
PARTS = [
    Row(told("a part"), "explore log p0 --sectors 4 --guards --images 0..1", files([], STRAYING), "crash part 1\n" + PART, 1),
    Row(told("its join"), "join a", {"a": "crash part 1\n" + PART}, JOINED, 1),
    *(
        refused(told(f"no part: {old} as {new}"), "join a", {"a": "crash part 1\n" + PART.replace(old, new)}, "refused 61 at 0")
        for old, new in {
            "stray at slot 2": "stray at slot",
            "stray at slot 2 ": "stray at slot 02 ",
            "guards 1": "guards",
            "guards 1\n": "guards 01\n",
            "budget 4 guards 1": "guards 1 budget 4",
            "at slot 2": f"at slot {2**64}",
        }.items()
    ),
]

# Faults of the command line
FAULTY = [
    "explore log p0 --sectors 4 --guards --checked 5",
    "explore log p0 --sectors 4 --checked 5 --guards",
    "why log p0 --sectors 4 --guards --checked 5",
    "cure log p0 --sectors 4 --guards --checked 5",
    "page log p0 --sectors 4 --guards --checked 5",
    "verify p0 --sectors 4 --guards --checked 5",
    "verify p0 --sectors 4 --list",
    "verify p0 --sectors 4 --guards 1",
    "explore log p0 --sectors 4 --guards --list",
    "images log --sectors 4 --guards",
    "image log 0 --sectors 4 --guards",
    "list p0 --guards",
]

# A refusal with guards has no note of guards, and names what helps against the rules that are left
NOTED = [
    Row(
        told("notes of an unset register"),
        "verify p --sectors 4 --guards",
        {"p": program("mov64 r0, r2; exit")},
        status=2,
        error="refused 50 at 0",
        notes=[
            "slot 0: mov64 r0, r2",
            "r2: unset, or not of one kind on all paths",
            "a register that is read may be unset (docs/VERIFIER.md, Rules at a slot)",
            "give each variable a value, in C on each path; a checker has one parameter, the context",
        ],
    ),
    Row(
        told("notes of a refusal"),
        "verify p --sectors 4 --guards",
        {"p": program(NO_LENGTH)},
        status=2,
        error="refused 56 at 3",
        notes=[
            "slot 3: call 2",
            "r1: the number 0",
            "r2: the stack, 0 below r10",
            "r3: unset, or not of one kind on all paths",
            "an argument of the helper isn't of its kind (docs/VERIFIER.md, Rules at a slot)",
            "copy takes a constant length from 1 to 512",
        ],
    ),
    Row(
        told("notes of a helper that there isn't"),
        "verify p --sectors 4 --guards",
        {"p": program("call 12; exit")},
        status=2,
        error="refused 58 at 0",
        notes=[
            "slot 0: call 12",
            "there is no helper of that number, with --guards only 1 to 11 (docs/MACHINE.md, Helpers)",
            "take those of include/checker.h, not Linux's",
        ],
    ),
]

ROWS = [
    *(row for given in ACCEPTED for row in verified_rows(*given)),
    *(refused(told(f"refused with them too, {text}"), "verify p --sectors 64 --guards", {"p": program(text)}, f"refused {error}") for text, error in REFUSED.items()),
    *map(explored, ENDINGS),
    *(explored(text, options) for text in [PAST_DEVICE, READS_CALLER] for options in [" --cache 10", " --workers 4"]),
    *ON_A_LOG,
    *OTHERS,
    *PARTS,
    *(Row(told(f"fault of the command line: {words}"), words, files(FULL, program(FIRST_BYTE)), status=2, error=Something()) for words in FAULTY),
    *NOTED,
]

assert len({it.name for it in ROWS}) == len(ROWS)
