"""What programs answer: arithmetic, memory, helpers, and the faults of the machine (docs/MACHINE.md)."""
import struct

from notation import F, M, S, W, code, explore, program, report

# Each of these programs is followed by `exit` and answers within 10 steps, on any image.
ARITHMETIC = {
    "lddw r0, 9223372036854775808; sdiv64 r0, -1": 9223372036854775808,
    "lddw r0, 9223372036854775808; smod64 r0, -1": 0,
    "lddw r0, 9223372036854775808; mod64 r0, 0": 9223372036854775808,
    "lddw r0, 9223372036854775808; div64 r0, 0": 0,
    "mov32 r0, -2147483648; sdiv32 r0, -1": 2147483648,
    "mov32 r0, -2147483648; smod32 r0, -1": 0,
    "lddw r0, 0x180000000; mod32 r0, 0": 2147483648,
    "mov64 r0, -13; smod64 r0, 3": 18446744073709551615,
    "mov64 r0, 10; div64 r0, -1": 0,
    "mov64 r0, -1; div32 r0, -1": 1,
    "mov32 r0, -1": 4294967295,
    "mov32 r0, -1; add32 r0, 1": 0,
    "mov64 r0, 1; lsh64 r0, 65": 2,
    "mov64 r0, -8; arsh64 r0, 1": 18446744073709551612,
    "mov64 r0, -8; arsh32 r0, 1": 4294967292,
    "mov64 r1, 128; movsx8to64 r0, r1": 18446744073709551488,
    "mov64 r1, 128; movsx8to32 r0, r1": 4294967168,
    "mov64 r0, 0x1234; be16 r0": 13330,
    "lddw r0, 0x100000000; le64 r0": 4294967296,
    "mov64 r0, 0x12345678; swap32 r0": 2018915346,
}

# What programs with jumps, loads and stores answer.
MEMORY = {
    "stb [r10-1], 7; ldxb r0, [r10-1]": 7,
    "stdw [r10-8], -1; ldxsw r0, [r10-6]": 2**64 - 1,
    "stdw [r10-8], -1; ldxw r0, [r10-6]": 2**32 - 1,
    "stdw [r10-512], -1; ldxdw r0, [r10-512]": 2**64 - 1,
    "stdw [r10-8], -2; ldxb r0, [r10-8]": 0xFE,
    "stdw [r10-8], -2; ldxsb r0, [r10-8]": 2**64 - 2,
    "stw [r10-8], 0x12345678; ldxb r0, [r10-8]": 0x78,
    "stw [r10-8], 0x12345678; ldxh r0, [r10-6]": 0x1234,
    "stw [r10-8], -0x6dcba988; ldxsh r0, [r10-6]": 2**64 - 2**16 + 0x9234,
    "sth [r10-8], 0x12345678; ldxh r0, [r10-8]": 0x5678,
    "stxw [r10-4], r1; ldxh r0, [r10-4]": 0,
    "stxdw [r10-8], r1; ldxdw r0, [r10-8]": 2**32,
    "stxdw [r10-8], r10; ldxdw r0, [r10-8]": 2**33 + 512,
    "mov64 r0, 1; jeq r0, 0, +7": 1,
    "mov64 r0, 1; ja +1; mov64 r0, 2": 1,
    "mov64 r0, 1; ja32 +1; mov64 r0, 2": 1,
    "ja +2; mov64 r0, 3; ja +1; ja -3": 3,
    # the context: the sectors, the epoch, the marks, 0
    "ldxdw r0, [r1+0]": 4,
    "ldxdw r0, [r1+8]": 0,
    "ldxdw r0, [r1+24]": 0,
    "ldxw r0, [r1+0]": 4,
    "ldxdw r0, [r1+1]": 0,
    # a pointer is a number to the machine
    "mov64 r0, r1": 2**32,
    "mov64 r0, r10; sub64 r0, r1": 2**32 + 512,
    "lddw r2, 0x200000000; stdw [r2+0], 5; ldxdw r0, [r10-512]": 5,
    "lddw r2, 0x300000000; ldxdw r0, [r2+0]": 0,
    "lddw r2, 0x300000c00; ldxdw r0, [r2+504]": 0,
}

# What programs with helpers answer on four sectors of zeros.
HELPERS = {
    "mov64 r1, 4; call 1": 0,
    "mov64 r1, 3; call 1": 0x300000C00,
    "mov64 r1, 0; call 1": 0x300000000,
    "mov64 r1, -1; call 1": 0,
    "lddw r1, 4294967296; call 1": 0,
    "mov64 r1, 4; call 5": 2,
    "mov64 r1, 3; call 5": 1,
    "mov64 r1, -1; call 5": 2,
    "lddw r1, 4294967296; call 5": 2,
    "mov64 r1, 4; call 6": 0,
    "mov64 r1, 4; call 4": 0,
    "mov64 r1, 0; call 6": 0,
    "mov64 r1, 0; mov64 r2, 4; call 7": 2,
    "mov64 r1, 4; mov64 r2, 0; call 7": 2,
    "mov64 r1, 4; mov64 r2, 4; call 7": 2,
    "mov64 r1, 0; mov64 r2, 3; call 7": 1,
    "mov64 r1, 2; mov64 r2, 2; call 7": 1,
    "mov64 r1, 1; call 3": 1,
    "mov64 r1, 1048576; call 3": 1,
}

# Where programs fault: the number, and the slot.
FAULTS = {
    "ldxb r0, [r10-1]": "82 slot 0",
    "ldxb r0, [r10+0]": "83 slot 0",
    "stb [r1+0], 1": "84 slot 0",
    "lddw r1, 18446744073709551615; ldxdw r0, [r1+0]": "83 slot 2",
    "mov64 r10, 0": "88 slot 0",
    "ja32 +2147483647": "80 slot 0",
    # 80: the next slot isn't there, or is a second half
    "mov64 r0, 1; ja +1; lddw r0, 0": "80 slot 1",
    "mov64 r0, 1; ja -3": "80 slot 1",
    "mov64 r0, 1; ja +1": "80 slot 1",
    "mov64 r0, 1; ja +32767": "80 slot 1",
    "mov64 r0, 1; ja32 -2147483648": "80 slot 1",
    "mov64 r0, 1; jeq r0, 1, +1": "80 slot 1",
    "mov64 r0, 1; jne32 r0, 0, -4": "80 slot 1",
    # 81: a register that is read is unset
    "mov64 r0, r0": "81 slot 0",
    "add64 r0, 1": "81 slot 0",
    "mov64 r0, 1; add64 r0, r9": "81 slot 1",
    "neg32 r5": "81 slot 0",
    "le16 r5": "81 slot 0",
    "movsx8to64 r0, r5": "81 slot 0",
    "jeq r0, 0, +0": "81 slot 0",
    "mov64 r0, 1; jset r0, r2, +0": "81 slot 1",
    "ldxb r0, [r0+0]": "81 slot 0",
    "stb [r0+0], 1": "81 slot 0",
    "stxb [r10-1], r0": "81 slot 0",
    "mov64 r0, 1; mov64 r1, 3; call 5; mov64 r0, r1": "81 slot 3",
    "mov64 r5, 1; mov64 r1, 3; call 5; mov64 r0, r5": "81 slot 3",
    "mov64 r1, 3; call 1; mov64 r0, r1": "81 slot 2",
    "call 7": "81 slot 0",
    "call 2": "81 slot 0",
    # 82: a stack byte that is read is unset
    "sth [r10-2], 1; ldxw r0, [r10-4]": "82 slot 1",
    "stdw [r10-8], 1; ldxdw r0, [r10-9]": "82 slot 1",
    # 83: an unmapped byte
    "ldxdw r0, [r10-4]": "83 slot 0",
    "stdw [r10-4], 1": "83 slot 0",
    "stdw [r10-513], 1": "83 slot 0",
    "stdw [r10-513], -1": "83 slot 0",
    "stdw [r10-4], 0": "83 slot 0",
    "ldxb r0, [r10-513]": "83 slot 0",
    "ldxdw r0, [r1+25]": "83 slot 0",
    "ldxb r0, [r1-1]": "83 slot 0",
    "stdw [r1+25], 1": "83 slot 0",
    "mov64 r2, 0; ldxb r0, [r2+0]": "83 slot 1",
    "mov64 r2, 0; ldxb r0, [r2-1]": "83 slot 1",
    "mov64 r1, 3; call 1; ldxdw r0, [r0+505]": "83 slot 2",
    "mov64 r1, 3; call 1; stb [r0+512], 1": "83 slot 2",
    "mov64 r1, 4; call 1; ldxb r0, [r0+0]": "83 slot 2",
    "lddw r2, 0x300001000; ldxb r0, [r2+0]": "83 slot 2",
    "lddw r2, 0x200000400; ldxb r0, [r2+0]": "83 slot 2",
    "lddw r2, 0x3000001ff; ldxh r0, [r2+0]": "83 slot 2",
    # 84: a write to a byte that isn't stack
    "mov64 r1, 3; call 1; stb [r0+0], 1": "84 slot 2",
    "mov64 r1, 3; call 1; stdw [r0+504], 1": "84 slot 2",
    "stxdw [r1+24], r1": "84 slot 0",
    # 85: no such helper, whatever its arguments
    "call 0": "85 slot 0",
    "call 8": "85 slot 0",
    "call -1": "85 slot 0",
    "call 259": "85 slot 0",
    "call 2147483647": "85 slot 0",
    # 86: an argument out of its range
    "mov64 r1, 0; call 3": "86 slot 1",
    "mov64 r1, 1048577; call 3": "86 slot 1",
    "mov64 r1, -1; call 3": "86 slot 1",
    # 88 comes first
    "add64 r10, r9": "88 slot 0",
    "lddw r10, 0": "88 slot 0",
    "ldxb r10, [r9+0]": "88 slot 0",
    "neg64 r10": "88 slot 0",
    "be64 r10": "88 slot 0",
    "movsx8to32 r10, r9": "88 slot 0",
}

# Whole programs, limits and lines.
LIMITS = [
    ("ja -1; exit", 10, "out of steps"),
    ("ja -1; exit", 100000, "out of steps"),
    ("mov64 r0, 1; exit", 1, "out of steps"),
    ("mov64 r0, 1; exit", 2, "answer 1 codes -"),
    ("lddw r0, 5; exit", 2, "answer 5 codes -"),
    ("lddw r0, 5; exit", 1, "out of steps"),
    ("lddw r0, 5", 1, "fault 80 slot 0"),
    ("lddw r0, 4294967296", 10, "fault 80 slot 0"),
    # no instruction after the last step is a fault, and not out of steps; of no step nothing is seen
    ("mov64 r0, 1", 10, "fault 80 slot 0"),
    ("mov64 r0, 1", 1, "fault 80 slot 0"),
    ("mov64 r0, 1", 0, "out of steps"),
    ("exit", 10, "fault 81 slot 0"),
    ("exit", 0, "out of steps"),
    ("add64 r0, r1", 10, "fault 81 slot 0"),
    ("add64 r0, r1", 1, "fault 81 slot 0"),
    ("mov64 r1, 3; call 1; exit", 2, "out of steps"),
    ("mov64 r1, 3; call 1; exit", 3, f"answer {0x300000C00} codes -"),
]

# `again` counts for its slot over the whole run, whatever it is asked.
THREE_TURNS = "mov64 r6, 0; mov64 r1, 3; call 3; jeq r0, 0, +2; add64 r6, 1; ja -5; mov64 r0, r6; exit"
TURNS_UP = "mov64 r6, 1; mov64 r7, 0; mov64 r1, r6; call 3; add64 r7, r0; add64 r6, 1; jle r6, 2, -5; mov64 r0, r7; exit"
TURNS_DOWN = "mov64 r6, 3; mov64 r7, 0; mov64 r1, r6; call 3; add64 r7, r0; sub64 r6, 1; jne r6, 0, -5; mov64 r0, r7; exit"

AGAIN = [
    # three turns of five steps, then the answer 0 of the fourth call
    (THREE_TURNS, 21, "answer 3 codes -"),
    (THREE_TURNS, 20, "out of steps"),
    # two slots count apart
    ("mov64 r1, 1; call 3; mov64 r6, r0; mov64 r1, 1; call 3; add64 r0, r6; exit", 20, "answer 2 codes -"),
    # one slot asked for 1, then for 2: at each call it has answered fewer times than that
    (TURNS_UP, 30, "answer 2 codes -"),
    # one slot asked for 3, for 2, for 1: at the third call it has answered as often
    (TURNS_DOWN, 30, "answer 2 codes -"),
]

# `report` keeps 16 codes and answers 1 to the next one.
CODES = [
    ("mov64 r1, 5; call 4; exit", 9, None),
    ("mov64 r1, -1; call 4; mov64 r0, 1; exit", 9, f"answer 1 codes {2**64 - 1}"),
    ("mov64 r1, 0; call 4; mov64 r1, 0; call 4; mov64 r0, 2; exit", 9, "answer 2 codes 0,0"),
    ("mov64 r1, 7; call 4; ldxb r0, [r10-1]; exit", 9, "fault 82 slot 2"),
    ("mov64 r1, 7; call 4; ja -1", 9, "out of steps"),
    ("mov64 r1, 7; call 4; " * 16 + "exit", 99, None),
    ("mov64 r1, 7; call 4; " * 17 + "exit", 99, f"answer 1 codes {','.join('7' * 16)}"),
]

# Local calls: a frame of its own, of which four are open at most.
LOCAL_CALL = "mov64 r1, 20; callf +1; exit; mov64 r0, r1; add64 r0, 1; exit"
FOUR_FRAMES = "callf +1; exit; " * 3 + "mov64 r0, 7; exit"
FIVE_FRAMES = "callf +1; exit; " * 4 + "mov64 r0, 7; exit"
TWICE_CALLED = "mov64 r1, 1; callf +3; mov64 r1, 0; callf +1; exit; jeq r1, 0, +3; stb [r10-1], 3; mov64 r0, 0; exit; ldxb r0, [r10-1]; exit"
REPORT_CODES = "mov64 r6, 0; mov64 r1, 17; call 3; jeq r0, 0, +4; mov64 r1, r6; call 4; add64 r6, 1; ja -7; mov64 r0, 1; exit"
NESTED_LOOPS = "mov64 r1, 2; call 3; jeq r0, 0, +4; mov64 r1, 3; call 3; jeq r0, 0, -6; ja -4; mov64 r0, 0; exit"
COUNTED_CALLS = (
    "callf +7; mov64 r6, r0; callf +5; add64 r6, r0; callf +3; add64 r6, r0; mov64 r0, r6; exit; mov64 r1, 2; call 3; exit"
)

# Counts and codes of whole programs: seventeen codes are reported, and two calls of `again` count apart.
COUNTS = [
    (REPORT_CODES, 162, f"answer 1 codes {','.join(map(str, range(16)))}"),
    (NESTED_LOOPS, 29, None),
    (NESTED_LOOPS, 28, "out of steps"),
]

CALLS = [
    # local_call
    (LOCAL_CALL, 6, "answer 21 codes -"),
    (LOCAL_CALL, 5, "out of steps"),
    (FOUR_FRAMES, 8, "answer 7 codes -"),
    (FOUR_FRAMES, 7, "out of steps"),
    # 87: a fifth frame, also where no instruction begins at the entry
    ("callf -1; exit", 4, "fault 87 slot 0"),
    ("callf -1; exit", 3, "out of steps"),
    (FIVE_FRAMES, 10, "fault 87 slot 6"),
    ("callf +1; exit; " * 3 + "callf +9; exit", 10, "fault 87 slot 6"),
    # 80 at a call: no instruction begins at the entry
    ("callf +1; exit", 10, "fault 80 slot 0"),
    ("callf -2; exit", 10, "fault 80 slot 0"),
    ("callf +2147483647; exit", 10, "fault 80 slot 0"),
    ("callf +1; lddw r0, 0; exit", 10, "fault 80 slot 0"),
    # 80 at the EXIT: no instruction begins after the call
    ("ja +2; mov64 r0, 1; exit; callf -3", 10, "fault 80 slot 2"),
    # registers: 1 to 5 are the function's, and gone after it; 6 to 10 are the caller's
    ("mov64 r1, 5; callf +2; mov64 r0, r1; exit; mov64 r0, 0; exit", 10, "fault 81 slot 2"),
    ("mov64 r5, 5; callf +2; mov64 r0, r5; exit; mov64 r0, 0; exit", 10, "fault 81 slot 2"),
    ("mov64 r5, 5; callf +1; exit; mov64 r0, r5; exit", 10, "answer 5 codes -"),
    ("mov64 r6, 4; callf +2; mov64 r0, r6; exit; mov64 r6, 9; mov64 r0, 0; exit", 10, "answer 4 codes -"),
    ("mov64 r6, 4; callf +1; exit; mov64 r0, r6; exit", 10, "fault 81 slot 3"),
    ("mov64 r9, 4; callf +1; exit; mov64 r0, r9; exit", 10, "fault 81 slot 3"),
    ("mov64 r0, 4; callf +1; exit; exit", 10, "fault 81 slot 3"),
    ("callf +1; exit; mov64 r0, r10; exit", 10, f"answer {2**33 + 1024 + 512} codes -"),
    ("callf +2; mov64 r0, r10; exit; mov64 r0, 0; exit", 10, f"answer {2**33 + 512} codes -"),
    # stacks: each frame has its own, and others are reached by their addresses while they are open
    ("mov64 r1, r10; callf +1; exit; ldxb r0, [r1-1]; exit", 10, "fault 82 slot 3"),
    ("stb [r10-1], 7; mov64 r1, r10; callf +1; exit; ldxb r0, [r1-1]; exit", 10, "answer 7 codes -"),
    ("mov64 r1, r10; callf +2; ldxb r0, [r10-1]; exit; stb [r1-1], 5; mov64 r0, 0; exit", 10, "answer 5 codes -"),
    ("stb [r10-1], 7; callf +2; ldxb r0, [r10-1]; exit; stb [r10-1], 9; mov64 r0, 0; exit", 10, "answer 7 codes -"),
    ("stb [r10-1], 7; callf +1; exit; ldxb r0, [r10-1]; exit", 10, "fault 82 slot 3"),
    ("callf +1; exit; stdw [r10-512], 3; ldxdw r0, [r10-512]; exit", 10, "answer 3 codes -"),
    ("callf +1; exit; ldxb r0, [r10+0]; exit", 10, "fault 83 slot 2"),
    ("callf +1; exit; ldxb r0, [r10-513]; exit", 10, "fault 83 slot 2"),
    ("callf +1; exit; stdw [r10-4], 1; exit", 10, "fault 83 slot 2"),
    ("callf +1; exit; ldxb r0, [r10+1023]; exit", 10, "fault 83 slot 2"),
    ("callf +2; ldxb r0, [r0-1]; exit; stb [r10-1], 3; mov64 r0, r10; exit", 10, "fault 83 slot 1"),
    (TWICE_CALLED, 20, "fault 82 slot 9"),
    # `again` counts for its slot over the whole run, whatever the frame
    (COUNTED_CALLS, 30, "answer 2 codes -"),
]


def outcome(text, limit, line, entries=(), cuts="all", about="four sectors of zeros"):
    """A program on the only image of a log: its failing line, or none where it answers 0."""
    cut = 0 if cuts == "all" else len(entries)
    count = 1 if line else 0
    failing = f"image 0 cut {cut} program 0 {line} choice -\n" if line else ""
    slots = text.count("; ") + 1 + text.count("lddw")
    head = f"sectors 4 entries {len(entries)} cuts {cuts} bound 0 tears no first no\nprogram 0 slots {slots} limit {limit}\n"
    return explore(
        f"machine: {text}, {limit} steps, {about}",
        f"--sectors 4 --bound 0 --cuts {cuts} --checked {limit}",
        list(entries),
        program(text),
        report(head) + f"{failing}images 1 failing {count} lines {count}\n",
        count,
    )


def answered(text, answer, **more):
    line = f"answer {answer} codes -" if answer else None
    return outcome(f"{text}; exit", 10, line, **more)


# `mix` of a sector in which one word is 1: the word, and the mix

MIXES = {63: 1, 55: 1000003, 62: 16777619, 54: 16777669332857}


def one_word(place):
    return struct.pack("<Q", 1).rjust(8 * place + 8, b"\0").ljust(512, b"\0")


def on_sector_2(text, answer, data, about):
    """A program on the image in which sector 2 holds these bytes and all else is zeros."""
    return answered(text, answer, entries=[S(2, data)], cuts="flush", about=about)


MIXED = [
    on_sector_2("mov64 r1, 2; call 6", answer, one_word(place), f"word {place} of sector 2 is 1")
    for place, answer in MIXES.items()
] + [
    on_sector_2("mov64 r1, 2; call 5", 0, one_word(63), "word 63 of sector 2 is 1"),
    on_sector_2("mov64 r1, 1; call 5", 1, one_word(63), "word 63 of sector 2 is 1"),
    on_sector_2("mov64 r1, 1; mov64 r2, 2; call 7", 0, one_word(63), "word 63 of sector 2 is 1"),
    on_sector_2("mov64 r1, 1; mov64 r2, 2; call 7", 0, one_word(0), "word 0 of sector 2 is 1"),
    on_sector_2("mov64 r1, 1; mov64 r2, 3; call 7", 1, one_word(63), "word 63 of sector 2 is 1"),
]


# On four sectors of 0xee


def on_ee(text, line):
    return outcome(text, 20, line, [W(0, 4, 0xEE)], "flush", "four sectors of 0xee")


COPY = "mov64 r1, {at}; mov64 r2, {to}; {moved}; mov64 r3, {length}; call 2; {then}; exit"


def copied(line, at=2040, to="r10", moved="sub64 r2, 16", length=16, then="ja +0"):
    return on_ee(COPY.format(at=at, to=to, moved=moved, length=length, then=then), line)


EE = int.from_bytes(b"\xee" * 8, "little")

ON_EE = [
    copied("answer 1 codes -"),
    copied("answer 238 codes -", then="ldxb r0, [r10-9]"),
    copied(None, then="ldxb r0, [r10-8]"),
    copied("answer 1 codes -", at=-1),
    copied(None, at=-1, then="ldxdw r0, [r10-8]"),
    copied(None, at=-1, then="ldxdw r0, [r10-16]"),
    copied(f"answer {EE} codes -", at=2032, then="ldxdw r0, [r10-8]"),
    copied(None, at=2032),
    copied("answer 1 codes -", at=2033),
    copied("answer 1 codes -", at=2048),
    copied(f"answer {EE} codes -", at=504, then="ldxdw r0, [r10-8]"),
    copied(None, at=0, moved="sub64 r2, 512", length=512),
    copied(None, at=0, moved="sub64 r2, 1", length=1),
    copied("answer 238 codes -", at=0, moved="sub64 r2, 1", length=1, then="ldxb r0, [r10-1]"),
    copied("fault 82 slot 5", at=0, moved="sub64 r2, 8", length=1, then="ldxb r0, [r10-7]"),
    copied("fault 86 slot 4", length=0),
    copied("fault 86 slot 4", length=513),
    copied("fault 86 slot 4", length=-1),
    # a wrong length comes before a wrong destination
    copied("fault 86 slot 4", to="0", length=0),
    copied("fault 83 slot 4", moved="sub64 r2, 8"),
    copied("fault 83 slot 4", moved="sub64 r2, 513"),
    copied("fault 83 slot 4", to="0"),
    copied("fault 83 slot 4", to="-8"),
    on_ee("mov64 r2, r1; mov64 r1, 0; mov64 r3, 16; call 2; exit", "fault 84 slot 3"),
    on_ee("mov64 r2, r1; add64 r2, 17; mov64 r1, 0; mov64 r3, 16; call 2; exit", "fault 83 slot 4"),
    on_ee("mov64 r1, 3; call 1; mov64 r2, r0; mov64 r1, 0; mov64 r3, 16; call 2; exit", "fault 84 slot 5"),
    on_ee("mov64 r1, 3; call 1; ldxdw r0, [r0+504]; exit", f"answer {EE} codes -"),
    on_ee("mov64 r1, 3; call 1; ldxb r0, [r0+511]; exit", "answer 238 codes -"),
    on_ee("mov64 r1, 3; call 1; ldxsh r0, [r0+510]; exit", f"answer {2**64 - 2**16 + 0xEEEE} codes -"),
    on_ee("mov64 r1, 3; call 5; exit", None),
    on_ee("mov64 r1, 0; mov64 r2, 3; call 7; exit", "answer 1 codes -"),
    # to the stack of a local function, and from there to that of its caller
    on_ee("callf +1; exit; mov64 r1, 0; mov64 r2, r10; sub64 r2, 8; mov64 r3, 8; call 2; ldxb r0, [r10-8]; exit", "answer 238 codes -"),
    on_ee("mov64 r2, r10; callf +2; ldxb r0, [r10-8]; exit; mov64 r1, 0; sub64 r2, 8; mov64 r3, 8; call 2; exit", "answer 238 codes -"),
]

# The words of the context at each cut: two flushes and a mark.
CONTEXT = [
    explore(
        f"machine: word {word} of the context",
        "--sectors 9 --bound 0 --checked 2",
        [F, M("x"), F],
        program(f"ldxdw r0, [r1+{8 * word}]; exit"),
        report("sectors 9 entries 3 cuts all bound 0 tears no first no\nprogram 0 slots 2 limit 2\n")
        + "".join(
            f"image {cut} cut {cut} program 0 answer {answer} codes - choice -\n"
            for cut, answer in enumerate(answers)
            if answer
        )
        + f"images 4 failing {4 - answers.count(0)} lines {4 - answers.count(0)}\n",
        1 if any(answers) else 0,
    )
    for word, answers in enumerate([[9, 9, 9, 9], [0, 1, 1, 2], [0, 0, 1, 1], [0, 0, 0, 0]])
]

# A run begins anew on each image: what was stored, counted and reported before is gone.
ANEW = [
    explore(
        "machine: each image begins anew",
        "--sectors 4 --bound 0 --checked 20",
        [F, F],
        program("mov64 r1, 1; call 3; mov64 r6, r0; mov64 r1, 7; call 4; mov64 r0, r6; exit"),
        report("""
            sectors 4 entries 2 cuts all bound 0 tears no first no
            program 0 slots 7 limit 20
            image 0 cut 0 program 0 answer 1 codes 7 choice -
            image 1 cut 1 program 0 answer 1 codes 7 choice -
            image 2 cut 2 program 0 answer 1 codes 7 choice -
            images 3 failing 3 lines 3
            """),
        1,
    ),
    explore(
        "machine: the stack is unset on each image",
        "--sectors 4 --bound 0 --checked 20",
        [F],
        [program("stdw [r10-8], 1; mov64 r0, 0; exit"), program("ldxdw r0, [r10-8]; exit")],
        report("""
            sectors 4 entries 1 cuts all bound 0 tears no first no
            program 0 slots 3 limit 20
            program 1 slots 2 limit 20
            image 0 cut 0 program 1 fault 82 slot 0 choice -
            image 1 cut 1 program 1 fault 82 slot 0 choice -
            images 2 failing 2 lines 2
            """),
        1,
    ),
    explore(
        "machine: lines of all kinds",
        "--sectors 4 --bound 1 --checked 3",
        [W(0, 1, 0xAA)],
        [code("9500000000000000"), program("ja -1"), program("mov64 r0, 0; exit"), program("mov64 r0, -1; exit")],
        report("""
            sectors 4 entries 1 cuts all bound 1 tears no first no
            program 0 slots 1 limit 3
            program 1 slots 1 limit 3
            program 2 slots 2 limit 3
            program 3 slots 2 limit 3
            image 0 cut 0 program 0 fault 81 slot 0 choice -
            image 0 cut 0 program 1 out of steps choice -
            image 0 cut 0 program 3 answer 18446744073709551615 codes - choice -
            image 1 cut 1 program 0 fault 81 slot 0 choice -
            image 1 cut 1 program 1 out of steps choice -
            image 1 cut 1 program 3 answer 18446744073709551615 codes - choice -
            image 2 cut 1 program 0 fault 81 slot 0 choice 0.0:drop
            image 2 cut 1 program 1 out of steps choice 0.0:drop
            image 2 cut 1 program 3 answer 18446744073709551615 codes - choice 0.0:drop
            images 3 failing 3 lines 9
            """),
        1,
    ),
]

ROWS = [
    *(answered(text, answer) for table in [ARITHMETIC, MEMORY, HELPERS] for text, answer in table.items()),
    *(outcome(f"{text}; exit", 10, f"fault {fault}") for text, fault in FAULTS.items()),
    *(outcome(*about) for table in [LIMITS, AGAIN, CODES, COUNTS, CALLS] for about in table),
    *MIXED,
    *ON_EE,
    *CONTEXT,
    *ANEW,
]
