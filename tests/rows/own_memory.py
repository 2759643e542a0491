"""The memory of a program's own and the checksums, with `--guards` (docs/MACHINE.md, 'Memory', 'Checksums' and 'Footprint';
docs/VERIFIER.md, 'Guards').

Programs are made of bytes here, so that machine_model.py runs the very program: what it comes to is what the model says. The checksums
of the device are also compared with Python's own CRC-32, and with a CRC-32C that is made bit by bit.
"""
import functools
import struct
import zlib

from cases_model import ANY, cases, status as status_of
from machine_model import MEMORY, OWN, SECTORS, STACKS, judged, summed
from model import Checker, Noted, Run, cured, head, one_loss_notes
from notation import FIRST_LINE, SECTOR, D, F, Long, M, Row, S, W, files, refused

CASTAGNOLI, ISO = 0x82F63B78, 0xEDB88320
END = MEMORY + OWN
SIZES = {1: 0x10, 2: 0x08, 4: 0x00, 8: 0x18}

# Instructions


def slot(code, dst=0, src=0, offset=0, imm=0):
    return struct.pack("<BBhi", code, dst | src << 4, offset, (imm + 2**31) % 2**32 - 2**31)


def lddw(dst, number):
    return slot(0x18, dst, 0, 0, number) + slot(0, 0, 0, 0, number % 2**64 >> 32)


def mov(dst, imm):
    return slot(0xB7, dst, 0, 0, imm)


def move(dst, src):
    return slot(0xBF, dst, src)


def add(dst, imm):
    return slot(0x07, dst, 0, 0, imm)


def plus(dst, src):
    return slot(0x0F, dst, src)


def load(size, dst, base, offset=0):
    return slot(0x61 | SIZES[size], dst, base, offset)


def load_signed(size, dst, base, offset=0):
    return slot(0x81 | SIZES[size], dst, base, offset)


def store(size, base, offset, imm):
    return slot(0x62 | SIZES[size], base, 0, offset, imm)


def put(size, base, offset, src):
    return slot(0x63 | SIZES[size], base, src, offset)


def call(number):
    return slot(0x85, 0, 0, 0, number)


def call_local(distance):
    return slot(0x85, 0, 1, 0, distance)


def reported(register):
    return move(1, register) + call(4)


EXIT = slot(0x95)
BAD, GOOD = mov(0, 1) + EXIT, mov(0, 0) + EXIT
# Stores of five bytes and a word at the address in r1, or loads of them.
WIDTHS = [1, 2, 4, 8]


def told(text):
    return f"own memory: {text}"


# Reports, by the machine's model


def instructions(code):
    """How many a straight program has, which is its budget: each `lddw` has a slot more."""
    return len(code) // 8 - sum(code[at : at + 1] == b"\x18" for at in range(0, len(code), 8))


def about(code, guarded, budget=None):
    return f"slots {len(code) // 8} budget {instructions(code) if budget is None else budget} guards {guarded}"


def ends(run, programs):
    """What each program comes to on each image."""
    return [(image, [judged(code, image, 100_000, True) for code, *_ in programs]) for image in run.images()]


def failing_lines(run, programs):
    return [
        f"image {image.number} cut {image.cut} program {number} {end.text} choice {image.choice()}"
        for image, found in ends(run, programs)
        for number, end in enumerate(found)
        if not end.good
    ]


@functools.lru_cache(maxsize=None)
def text_of(run, programs):
    """The report of a run. A program has its bytes, how many of its slots are guarded, and its budget where it isn't straight."""
    checkers = [Checker(about(*it), None) for it in programs]
    lines = failing_lines(run, programs)
    failing = len({it.split(" cut ")[0] for it in lines})
    total = sum(1 for _image in run.images())
    last = f"images {total} failing {failing} lines {len(lines)}"
    return FIRST_LINE + head(run, checkers, False) + "".join(f"{it}\n" for it in [*lines, last])


def explored(run, programs):
    return text_of(run, tuple(programs))


def row(name, run, programs, options="", status=1):
    """A row of a run with guards. `status` is 1 where a run fails, which is what most are for."""
    names = " ".join(f"p{number}" for number in range(len(programs)))
    content = files(run.recorded, *(code for code, *_ in programs))
    return Row(told(f"{name}{options}"), f"explore log {names} {run.options()} --guards{options}", content, Long(lambda: explored(run, programs)), status)


WAYS = ["", " --cache 64", " --workers 4", " --workers 4 --cache 64"]

# The checksums of the device: every helper, many lengths, from many places

CONTENT = bytes((7 * at + at // 251 + at * at // 65536) % 256 for at in range(12 * SECTOR))
ON_DISK = Run([S(0, CONTENT)], 12, "all", 0, first=1)
SIZE = len(CONTENT)
LENGTHS = [0, 1, 7, 8, 9, 511, 512, 513, 4095, 4096, 4097, SIZE, 2**63, 2**64 - 1]
PLACES = [0, 1, 511, 2047, SIZE - 4096, SIZE - 1, SIZE, 2**64 - 1]
REGISTERS = [0, 1, 0xFFFFFFFF, 2**32, 2**64 - 1, 0x123456789ABCDEF]
NAMES = {8: "crc32c", 9: "crc32", 10: "crc32c_memory", 11: "crc32_memory"}


def crc32(register, content):
    """By Python's own library, whose CRC-32 begins and ends inverted."""
    return zlib.crc32(content, register % 2**32 ^ 0xFFFFFFFF) ^ 0xFFFFFFFF


def by_bits(polynomial, register, content):
    """A checksum bit by bit."""
    for byte in content:
        register ^= byte
        for _ in range(8):
            register = register >> 1 ^ (polynomial if register & 1 else 0)
    return register


def crc32c(register, content):
    return by_bits(CASTAGNOLI, register % 2**32, content)


# The check values of both: of nine digits, begun and ended inverted
assert crc32c(0xFFFFFFFF, b"123456789") ^ 0xFFFFFFFF == 0xE3069283 and crc32(0xFFFFFFFF, b"123456789") ^ 0xFFFFFFFF == 0xCBF43926
# 32 zeros, and 32 bytes of ones (RFC 3720, B.4)
assert crc32c(0xFFFFFFFF, bytes(32)) ^ 0xFFFFFFFF == 0x8A9136AA and crc32c(0xFFFFFFFF, b"\xff" * 32) ^ 0xFFFFFFFF == 0x62A8AB43
assert all(by_bits(ISO, it, CONTENT[:99]) == crc32(it, CONTENT[:99]) for it in (0, 1, 0xFFFFFFFF))
assert all(summed(of, it, CONTENT[:99]) == by_bits(of, it, CONTENT[:99]) for of in (CASTAGNOLI, ISO) for it in (0, 1, 0xFFFFFFFF))
SUMS = {8: crc32c, 9: crc32, 10: crc32c, 11: crc32}


def taken(place, length):
    """The bytes of a checksum of the device."""
    length = min(length, 4096)
    found = CONTENT[min(place, SIZE) : min(place + length, SIZE)]
    return found.ljust(length, b"\0")


def summing(helper, register, place, length):
    return lddw(1, register) + lddw(2, place) + lddw(3, length) + call(helper)


def answers(cases):
    """A program that reports what each checksum answers."""
    return b"".join(summing(*it) + reported(0) for it in cases) + BAD


def sums_row(name, cases):
    """Sixteen checksums at most, each of which is one code of the only failing line."""
    code = answers(cases)

    def text():
        codes = ",".join(str(SUMS[helper](register, taken(place, length))) for helper, register, place, length in cases)
        line = f"image 0 cut 1 program 0 answer 1 codes {codes} choice -\n"
        return FIRST_LINE + head(ON_DISK, [Checker(about(code, 0), None)], False) + line + "images 1 failing 1 lines 1\n"

    words = f"explore log p0 {ON_DISK.options()} --guards"
    return Row(told(name), words, files(ON_DISK.recorded, code), Long(text), 1)


SUMMED = [
    *(sums_row(f"{NAMES[helper]} from byte {place}", [(helper, 0xFFFFFFFF, place, it) for it in LENGTHS]) for helper in (8, 9) for place in PLACES),
    *(sums_row(f"{NAMES[helper]}, registers", [(helper, register, 3, length) for register in REGISTERS for length in (0, 700)]) for helper in (8, 9)),
    # ten calls of 512 bytes, each with the last answer, are one of 5,120; here one of 4,096 and one of the rest
    *(
        row(f"{NAMES[helper]} goes on", ON_DISK, [(summing(helper, 5, 10, 4096) + move(1, 0) + lddw(2, 4106) + mov(3, 904) + call(helper) + reported(0) + BAD, 0)])
        for helper in (8, 9)
    ),
]
GOES_ON = [
    Row(
        told(f"{NAMES[helper]} goes on, by the library"),
        "check p image --guards",
        {"p": summing(helper, 5, 10, 4096) + move(1, 0) + lddw(2, 4106) + mov(3, 904) + call(helper) + EXIT, "image": CONTENT},
        Long(lambda helper=helper: f"crash check 1\nsectors 12 epoch 0 marks 0\nprogram slots 13 budget 9 guards 0\nsteps 9\nanswer {SUMS[helper](5, CONTENT[10:5010])} codes -\n"),
        1,
    )
    for helper in (8, 9)
]

# The checksums of memory and of stacks

FILLED = lddw(1, 3) + lddw(2, MEMORY + 100) + mov(3, 512) + call(2) + lddw(1, 515) + lddw(2, END - 512) + mov(3, 512) + call(2)
PIECES = [(MEMORY + 100, 512), (MEMORY, 4096), (MEMORY, 4097), (MEMORY + 611, 1), (MEMORY + 612, 1), (MEMORY + 99, 0), (END - 512, 512), (END - 4096, 4097), (END - 1, 1), (END - 4096, 2**64 - 1)]
# of this frame's stack, whose last 40 bytes were copied, and by a local function of the caller's
ON_STACK = lddw(1, 77) + move(2, 10) + add(2, -40) + mov(3, 40) + call(2)


def of_stack(helper, back, length, register=9):
    return lddw(1, register) + move(2, 10) + add(2, -back) + lddw(3, length) + call(helper)


STACKED = [(40, 40), (512, 512), (1, 1), (41, 2), (0, 0), (512, 0)]


def memory_sums(helper):
    cases = b"".join(summing(helper, 0xFFFFFFFF, *it) + reported(0) for it in PIECES)
    return FILLED + cases + BAD, len(PIECES)


def stack_sums(helper):
    return ON_STACK + b"".join(of_stack(helper, *it) + reported(0) for it in STACKED) + BAD, len(STACKED)


def called(body, budget_of_body):
    """A program whose local function has the caller's r10 as r1, and whose answer it gives."""
    code = ON_STACK + move(1, 10) + call_local(1) + EXIT + body
    return code, budget_of_body + instructions(ON_STACK) + 3


CALLERS = move(2, 1) + add(2, -40) + mov(1, 5) + mov(3, 40)
OF_MEMORY = [
    *(row(f"{NAMES[helper]} of memory", ON_DISK, [memory_sums(helper)]) for helper in (10, 11)),
    *(row(f"{NAMES[helper]} of the stack", ON_DISK, [stack_sums(helper)]) for helper in (10, 11)),
    *(
        row(f"{NAMES[helper]} of the caller's stack", ON_DISK, [(code, 1, budget)])
        for helper in (10, 11)
        for code, budget in [called(CALLERS + call(helper) + EXIT, 6)]
    ),
]

# Places of checksums at which a run strays: an address, a length
NOWHERE = {
    "a number": (8, 1),
    "the context": (2**32, 8),
    "a sector": (SECTORS, 8),
    "a byte past the stack": (STACKS + 512, 1),
    "across the end of the stack": (STACKS + 500, 13),
    "before the stack": (STACKS - 1, 1),
    "a stack that isn't there": (STACKS + 1024, 8),
    "a byte before the memory": (MEMORY - 1, 1),
    "from before the memory on": (MEMORY - 1, 4096),
    "a byte past the memory": (END, 1),
    "across the end of the memory": (END - 8, 9),
    "4,096 bytes across its end": (END - 4095, 2**40),
    "no byte at a number": (8, 0),
    "the highest address": (2**64 - 1, 1),
    "across the highest address": (2**64 - 8, 16),
}
STRAYED = [
    row(f"{NAMES[helper]} of {name}", ON_DISK, [(summing(helper, 1, *it) + EXIT, 1)]) for name, it in NOWHERE.items() for helper in (10, 11)
]
# No byte right at an end is no stray.
INSIDE = [
    row(f"{NAMES[helper]} of no byte at {it}", ON_DISK, [(summing(helper, 1, it, 0) + EXIT, 1)])
    for it in (MEMORY, END, STACKS, STACKS + 512)
    for helper in (10, 11)
]

# Loads, stores and copies at the ends of the memory. An address, and how many slots are guarded there.


def at_end(address, kind, size):
    """A program that touches the memory there, and reads what it wrote; r6 has eight bytes."""
    base = lddw(6, 0x8899AABBCCDDEEFF) + lddw(7, address)
    if kind == "load":
        return base + load(size, 0, 7) + add(0, 1) + EXIT
    if kind == "signed load":
        middle = MEMORY + 32768
        return lddw(1, middle) + b"".join(store(8, 1, it - middle, -2) for it in (MEMORY, MEMORY + 1020, END - 8)) + base + load_signed(size, 0, 7) + EXIT
    if kind == "store":
        return base + store(size, 7, 0, -5) + load(size, 0, 7) + EXIT
    if kind == "store of a register":
        return base + put(size, 7, 0, 6) + load(size, 0, 7) + EXIT
    return base + mov(1, 100) + move(2, 7) + mov(3, size) + call(2) + load(1, 0, 7, size - 1) + EXIT


def touches(kind):
    """How many instructions of it touch that place."""
    return 1 if kind in ("load", "signed load") else 2


KINDS = {"load": WIDTHS, "signed load": [1, 2, 4], "store": WIDTHS, "store of a register": WIDTHS, "copy": [1, 8, 512]}


def end_rows(kind, size):
    """The places at both ends: inside at them, and one byte further."""
    for name, address, inside in [
        ("the first place", MEMORY, True),
        ("one before it", MEMORY - 1, False),
        ("the last place", END - size, True),
        ("one after it", END - size + 1, False),
        ("past the end", END, False),
        ("across the begin of a piece", MEMORY + 1024 - size // 2, True),
    ]:
        guarded = 0 if inside else touches(kind)
        if kind == "copy" and not inside:
            # the last byte alone is loaded, which is proved where the address isn't below the memory and that byte lies there
            guarded = 1 + (not MEMORY <= address <= END - size)
        yield row(f"{kind} of {size} at {name}", ON_DISK, [(at_end(address, kind, size), guarded)])


ENDS = [it for kind, sizes in KINDS.items() for size in sizes for it in end_rows(kind, size)]
# By a distance, and by an address that wraps
DISTANCES = [
    row("at a distance below", ON_DISK, [(lddw(1, MEMORY + 32768) + store(1, 1, -32768, 7) + load(1, 0, 1, -32768) + EXIT, 0)]),
    row("at a distance above", ON_DISK, [(lddw(1, END - 32768) + store(1, 1, 32767, 7) + load(1, 0, 1, 32767) + EXIT, 0)]),
    row("at one too far below", ON_DISK, [(lddw(1, MEMORY + 32767) + load(1, 0, 1, -32768) + EXIT, 1)]),
    row("at one too far above", ON_DISK, [(lddw(1, END - 32767) + load(1, 0, 1, 32767) + EXIT, 1)]),
]

# What the verifier knows of places: a program, and which slots are guarded with their instructions
BYTE = mov(1, 0) + call(1) + slot(0x55, 0, 0, 2, 0) + GOOD + load(1, 2, 0)
KNOWN = [
    ("a byte as an index, the last byte", BYTE + lddw(1, END - 256) + plus(1, 2) + load(1, 0, 1) + EXIT, 8, {}),
    ("a byte as an index, two bytes", BYTE + lddw(1, END - 256) + plus(1, 2) + load(2, 0, 1) + EXIT, 8, {9: "ldxh r0, [r1+0]"}),
    ("a byte as an index, before the first byte", BYTE + lddw(1, MEMORY) + plus(1, 2) + load(1, 0, 1, -1) + EXIT, 8, {9: "ldxb r0, [r1-1]"}),
    ("what a checksum answers, as an index", summing(8, 1, 0, 9) + slot(0x77, 0, 0, 0, 16) + lddw(1, MEMORY) + plus(1, 0) + load(1, 0, 1) + EXIT, 9, {}),
    ("and two bytes", summing(8, 1, 0, 9) + slot(0x77, 0, 0, 0, 16) + lddw(1, MEMORY) + plus(1, 0) + load(2, 0, 1) + EXIT, 9, {11: "ldxh r0, [r1+0]"}),
    ("a byte of memory, as an index", lddw(1, MEMORY) + load(1, 2, 1) + plus(1, 2) + store(8, 1, 8, 3) + load(1, 0, 1) + EXIT, 6, {}),
    ("eight bytes of memory, as an index", lddw(1, MEMORY) + load(8, 2, 1) + plus(1, 2) + load(1, 0, 1) + EXIT, 5, {4: "ldxb r0, [r1+0]"}),
    ("an address after the memory, and a distance back", lddw(1, END) + load(8, 0, 1, -8) + EXIT, 3, {}),
    ("an address after the memory, and a shorter one", lddw(1, END) + load(8, 0, 1, -7) + EXIT, 3, {2: "ldxdw r0, [r1-7]"}),
    ("an address below the memory, and a distance", lddw(1, MEMORY - 1) + load(8, 0, 1, 1) + EXIT, 3, {2: "ldxdw r0, [r1+1]"}),
    ("a store to memory leaves the stack", put(8, 10, -8, 1) + lddw(3, MEMORY) + store(8, 3, 0, 1) + load(8, 2, 10, -8) + load(8, 0, 2) + EXIT, 6, {}),
    ("a store to a place that isn't known doesn't", put(8, 10, -8, 1) + lddw(3, MEMORY - 1) + store(8, 3, 0, 1) + load(8, 2, 10, -8) + load(8, 0, 2) + EXIT, 6, {3: "stdw [r3+0], 1", 5: "ldxdw r0, [r2+0]"}),
    ("a copy to memory leaves the stack", put(8, 10, -8, 1) + mov(1, 0) + lddw(2, END - 8) + mov(3, 8) + call(2) + load(8, 2, 10, -8) + load(8, 0, 2) + EXIT, 8, {}),
    ("a copy past it doesn't", put(8, 10, -8, 1) + mov(1, 0) + lddw(2, END - 8) + mov(3, 9) + call(2) + load(8, 2, 10, -8) + load(8, 0, 2) + EXIT, 8, {5: "call 2", 7: "ldxdw r0, [r2+0]"}),
    ("checksums of memory and the stack", summing(10, 1, MEMORY, 9) + of_stack(11, 8, 8) + EXIT, 10, {6: "call 10", 13: "call 11"}),
    ("checksums of the device", summing(8, 1, MEMORY, 9) + summing(9, 1, 2**64 - 1, 2**64 - 1) + EXIT, 9, {}),
    ("lengths that aren't constant", BYTE + mov(1, 0) + move(3, 2) + call(8) + EXIT, 8, {}),
]


def verified(name, code, budget, guarded):
    listed = "".join(f"{at}: {instruction}\n" for at, instruction in guarded.items())
    return Row(told(f"verify, {name}"), "verify p --sectors 64 --guards --list", {"p": code}, f"accepted budget {budget} guards {len(guarded)}\n{listed}")


# Each run begins with zeros: programs that answer what stood there, and store

MANY = Run([W(0, 1, 1), W(1, 2, 2), F, W(3, 1, 3), M("m"), W(0, 2, 4), D(2, 1), W(1, 1, 7)], 4, "all", 2)
KEPT = [MEMORY, MEMORY + 1016, MEMORY + 1020, MEMORY + 1024, MEMORY + 32768, END - 8]


def left(place):
    """Answers what stood at a place, and stores there."""
    return lddw(1, place) + load(8, 0, 1) + store(8, 1, 0, -1) + EXIT


# by many stores, and by a copy over the end of a piece; each answers the sum of what stood there
OFTEN = b"".join(lddw(1, it) + load(8, 2, 1) + plus(6, 2) + store(8, 1, 0, 5) for it in KEPT)
OFTEN = mov(6, 0) + OFTEN + move(0, 6) + EXIT
LEFT_BY_COPY = lddw(6, MEMORY + 768) + load(8, 7, 6) + load(8, 8, 6, 504) + load(8, 9, 6, 256) + mov(1, 0) + move(2, 6) + mov(3, 512) + call(2)
LEFT_BY_COPY += move(0, 7) + plus(0, 8) + plus(0, 9) + EXIT
# where sector 0 begins with 4 it stores and strays, and else it answers what stands there
LEFT_BY_STRAY = mov(1, 0) + call(1) + slot(0x55, 0, 0, 2, 0) + GOOD + load(1, 2, 0) + lddw(1, MEMORY + 2048) + load(8, 0, 1) + store(8, 1, 0, 9)
LEFT_BY_STRAY += slot(0x55, 2, 0, 1, 4) + load(8, 0, 2) + EXIT
ZEROS = [
    *(row(f"begins with zeros, by byte {it - MEMORY}", MANY, [(left(it), 0)], way, 0) for it in KEPT for way in WAYS),
    *(row("begins with zeros, six places", MANY, [(OFTEN, 0)], way, 0) for way in WAYS),
    *(row("begins with zeros, by copy", MANY, [(LEFT_BY_COPY, 0)], way, 0) for way in WAYS),
    *(row("begins with zeros, after a stray", MANY, [(LEFT_BY_STRAY, 1, 10), (left(MEMORY + 2048), 0)], way) for way in WAYS),
    *(row("begins with zeros, two programs", MANY, [(left(MEMORY), 0), (left(MEMORY), 0), (OFTEN, 0)], way, 0) for way in WAYS),
]

# At which sectors a checksum looks: what it covers of a log's sectors decides, at each cut and with each loss

LOOKED = Run([W(0, 3, 0x11), W(3, 1, 0x21), *(W(it, 1, 0x40 + it) for it in range(4, 9)), F, W(1, 1, 0x51), W(2, 1, 0), W(9, 2, 5), D(3, 1), W(0, 1, 0x61)], 12, "flush", 1)


def odd(helper, place, length):
    """Answers a bit of a checksum."""
    return summing(helper, 7, place, length) + slot(0x57, 0, 0, 0, 3) + EXIT, 0


SPANS = [(0, 1), (511, 1), (511, 2), (512, 512), (513, 512), (1024, 4096), (0, 4097), (12 * SECTOR - 1, 9), (4000, 2**50), (5, 0), (2**64 - 1, 99), (1 << 63, 4096)]
# Those whose two bits are 0: far past the device there are zeros alone
PASSED = {(8, 1 << 63)}
# a length and a place that stand on the disk: the first byte of sector 0 times 16, from byte 1,000 on
BY_DISK = mov(1, 0) + call(1) + slot(0x55, 0, 0, 2, 0) + GOOD + load(1, 3, 0) + slot(0x67, 3, 0, 0, 4) + mov(2, 1000) + mov(1, 3) + call(8) + slot(0x57, 0, 0, 0, 3) + EXIT
# by way of memory: sectors are copied there, and their sum is that of the device
COPIED = b"".join(mov(1, 512 * it) + lddw(2, MEMORY + 512 * it) + mov(3, 512) + call(2) for it in range(4))
COPIED += summing(10, 7, MEMORY, 2048) + move(6, 0) + summing(8, 7, 0, 2048) + slot(0x1F, 6, 0) + move(0, 6) + EXIT
FOOTPRINTS = [
    *(row(f"{NAMES[helper]} of {length} bytes from {place}", LOOKED, [odd(helper, place, length)], way, (helper, place) not in PASSED)
      for helper in (8, 9) for place, length in SPANS for way in WAYS),
    *(row("a length on the disk", LOOKED, [(BY_DISK, 0, 10)], way) for way in WAYS),
    *(row("a checksum of what was copied", LOOKED, [(COPIED, 1)], way, 0) for way in WAYS),
    *(row("all spans at once", LOOKED, [odd(8, *it) for it in SPANS[:8]], way) for way in WAYS),
]

# Runs of any number of losses, and the cure, judge in their own ways


def as_checker(code, guarded, budget=None):
    """A program that doesn't stray, as model.py takes it."""

    def judge(image):
        answer, codes = judged(code, image, 100_000, True).text.removeprefix("answer ").split(" codes ")
        return int(answer), () if codes == "-" else tuple(map(int, codes.split(",")))

    return Checker(about(code, guarded, budget), judge)


CASES = Run([W(0, 1, 1), W(1, 2, 2), F, W(3, 1, 3), W(0, 2, 4), M("m"), D(2, 1)], 4, "all", 1)
JUDGED = [(left(MEMORY + 1016), 0), odd(8, 0, 2048), (OFTEN, 0), (COPIED, 1)]


def of_cases(more):
    text = cases(CASES, [as_checker(*it) for it in JUDGED], ANY)
    words = f"explore log p0 p1 p2 p3 {CASES.options().replace('--bound 1', '--bound any')} --guards{more}"
    return Row(told(f"cases{more}"), words, files(CASES.recorded, *(code for code, _ in JUDGED)), text, status_of(text))


def of_cure():
    words = f"cure log p0 p1 p2 p3 {CASES.options()} --guards"
    text = Long(lambda: cured(CASES, [as_checker(*it) for it in JUDGED]))
    return Row(told("cure"), words, files(CASES.recorded, *(code for code, _ in JUDGED)), text, 1)


OTHERS = [of_cases(""), of_cases(" --workers 4"), of_cure()]

# A checker that looks at nothing of what the log writes is noted (docs/CRASH-MODEL.md), by the sectors of its checksum

BLIND = Run([W(1, 1, 1), F, W(4, 2, 2), W(9, 1, 0)], 12, "all", 1)


def looks(helper, place, length):
    return summing(helper, 7, place, length) + GOOD


def is_blind(run, code):
    """Whether it passes at each cut, and looks at no sector that an entry writes."""
    looked = [Noted(0, cut, (), run) for cut in run.wanted_cuts()]
    return all(judged(code, it, 1000, True).good for it in looked) and not any(run.parts_over(number) for it in looked for number in it.looked)


def blind_row(helper, place, length):
    """Returns a row of a checksum of the device, whose note says whether it looks at what is written."""
    code = looks(helper, place, length)
    notes = ["program 0: looks at no sector that an entry writes, so no crash makes it fail"] if is_blind(BLIND, code) else []
    notes += ["entries with more than 1 sectors: 1; none is ever dropped as a whole", "with --by write each may be dropped as a whole", *one_loss_notes(BLIND)]
    words = f"explore log p0 {BLIND.options()} --guards"
    return Row(told(f"what {NAMES[helper]} of {length} bytes from {place} looks at"), words, files(BLIND.recorded, code), Long(lambda: explored(BLIND, [(code, 1 if helper > 9 else 0)])), 0, notes=notes)


BLINDS = [
    *(blind_row(helper, *it) for helper in (8, 9) for it in [(0, 512), (0, 513), (511, 1), (511, 2), (1023, 1), (1024, 1024), (1024, 1025), (1536, 0), (3072, 1536), (3072, 1537), (3071, 1), (12 * SECTOR, 99), (2**64 - 1, 4096)]),
    *(blind_row(helper, MEMORY, 4096) for helper in (10, 11)),
]

# Without guards: no memory, and no such helper

UNGUARDED = lddw(1, MEMORY) + load(1, 0, 1) + EXIT
UNGUARDED_STORE = lddw(1, MEMORY) + store(1, 1, 0, 1) + mov(0, 0) + EXIT
UNGUARDED_COPY = mov(1, 0) + lddw(2, MEMORY) + mov(3, 8) + call(2) + EXIT


def checked(name, code, end, steps):
    out = f"crash check 1\nsectors 1 epoch 0 marks 0\nprogram slots {len(code) // 8} limit 99\nsteps {steps}\n{end}\n"
    return Row(told(f"without guards, {name}"), "check p image --checked 99", {"p": code, "image": bytes(SECTOR)}, out, 1)


WITHOUT = [
    *(refused(told(f"without guards, {NAMES[it]}"), "verify p --sectors 4", {"p": summing(it, 1, MEMORY, 1) + EXIT}, "refused 58 at 6") for it in NAMES),
    refused(told("without guards, a load of memory"), "verify p --sectors 4", {"p": UNGUARDED}, "refused 52 at 2"),
    refused(told("without guards, a store to memory"), "verify p --sectors 4", {"p": UNGUARDED_STORE}, "refused 52 at 2"),
    refused(told("without guards, a copy to memory"), "verify p --sectors 4", {"p": UNGUARDED_COPY}, "refused 56 at 4"),
    *(checked(f"{NAMES[it]} is run", summing(it, 1, MEMORY, 1) + EXIT, "fault 85 slot 6", 4) for it in NAMES),
    *(checked(f"{NAMES[it]} is run with unset registers", call(it) + EXIT, "fault 85 slot 0", 1) for it in NAMES),
    checked("a load of memory is run", UNGUARDED, "fault 83 slot 2", 2),
    checked("a store to memory is run", UNGUARDED_STORE, "fault 83 slot 2", 2),
    checked("a copy to memory is run", UNGUARDED_COPY, "fault 83 slot 4", 4),
]

# With guards: which numbers are helpers, and that their registers are set

UNKNOWN = mov(1, 1) + mov(2, 1) + mov(3, 1)
# Instructions in front of a call, with which one of its registers is unset
LACKING = {"register": mov(1, 4) + call(1) + mov(2, 1) + mov(3, 1), "place": mov(1, 1) + mov(3, 1), "length": mov(1, 1) + mov(2, 1)}
TOLD = {
    "register": ["r1: unset, or not of one kind on all paths", "r2: the number 1", "r3: the number 1"],
    "place": ["r1: the number 1", "r2: unset, or not of one kind on all paths", "r3: the number 1"],
    "length": ["r1: the number 1", "r2: the number 1", "r3: unset, or not of one kind on all paths"],
}


def lacking(helper, name):
    """Returns a row of a helper that one of its arguments lacks."""
    code = LACKING[name] + call(helper)
    at = len(code) // 8 - 1
    notes = [f"slot {at}: call {helper}", *TOLD[name], "a register that is read may be unset (docs/VERIFIER.md, Rules at a slot)"]
    notes.append("give each variable a value, in C on each path; a checker has one parameter, the context")
    return Row(told(f"{NAMES[helper]} without its {name}"), "verify p --sectors 4 --guards", {"p": code + EXIT}, status=2, error=f"refused 50 at {at}", notes=notes)


NO_HELPER = [
    "there is no helper of that number, with --guards only 1 to 11 (docs/MACHINE.md, Helpers)",
    "take those of include/checker.h, not Linux's",
]
OF_FEWER = [
    "there is no helper of that number, only 1 to 7, and with --guards 8 to 11 (docs/MACHINE.md, Helpers)",
    f"{NO_HELPER[1]}; its checksums take --guards",
]


def unknown(words, number, guards, place=""):
    """A row of a command that is refused for a helper."""
    content = {"p0": UNKNOWN + call(number) + EXIT, "log": files([])["log"], "image": bytes(SECTOR)}
    notes = [f"slot 3: call {number}", *(NO_HELPER if guards else OF_FEWER)]
    words += " --guards" if guards else ""
    return Row(told(f"no helper {number}, {words}"), words, content, status=2, error=f"refused 58 at 3{place}", notes=notes)


COMMANDS = {"verify p0 --sectors 4": "", "check p0 image": "", **{f"{it} log p0 --sectors 4": " of program 0" for it in ("explore", "why", "cure", "page")}}
NUMBERS = [
    *(unknown(words, 12, True, place) for words, place in COMMANDS.items()),
    *(unknown(words, 8, False, place) for words, place in COMMANDS.items()),
    *(unknown("verify p0 --sectors 4", it, True) for it in (0, -1, 256 + 8, 2**31 - 1)),
    *(unknown("verify p0 --sectors 4", it, False) for it in (9, 10, 11)),
    *(lacking(helper, name) for helper in NAMES for name in LACKING),
    # reached or not, and before the rules at a slot
    refused(told("no helper after an exit"), "verify p --sectors 4 --guards", {"p": GOOD + call(12) + EXIT}, "refused 58 at 2"),
    refused(told("no helper, and an unset register"), "verify p --sectors 4 --guards", {"p": move(0, 5) + call(12) + EXIT}, "refused 58 at 1"),
    refused(told("a write of r10 comes before"), "verify p --sectors 4 --guards", {"p": call(12) + mov(10, 1) + EXIT}, "refused 57 at 1"),
    refused(told("a form of `again` comes after"), "verify p --sectors 4 --guards", {"p": call(3) + call(12) + EXIT}, "refused 58 at 1"),
]

# On one image, with the lines of the last steps

class View:
    """An image of these bytes, as machine_model.py takes it."""

    def __init__(self, content):
        self.content, self.run = content, Run([], len(content) // SECTOR)

    def epoch(self):
        return 0

    def marks(self):
        return 0

    def sector(self, number):
        return self.content[SECTOR * number : SECTOR * number + SECTOR]


def trial(name, code, guarded, image, more="", steps=None):
    """A row of `check`, with the lines of its last steps where they are given."""
    end = judged(code, View(image), 100_000, True)
    count = instructions(code) if steps is None else steps
    out = f"crash check 1\nsectors {len(image) // SECTOR} epoch 0 marks 0\nprogram {about(code, guarded)}\n{more}steps {count}\n{end.text}\n"
    trace = " --trace 1" if more else ""
    return Row(told(f"check, {name}"), f"check p image --guards{trace}", {"p": code, "image": image}, out, 0 if end.good else 1)


# The places of NOWHERE that `check` names by their regions; it gives the others as numbers.
IN_REGIONS = {
    2**32: "context+0",
    SECTORS: "sector 0+0",
    STACKS + 512: "stack 0+512",
    STACKS + 500: "stack 0+500",
    STACKS - 1: "context+4294967295",
    STACKS + 1024: "stack 1+0",
}


def strayed_sum(helper, name, address, length):
    """A checksum that strays: the line of its step names r2, the place, and how many bytes a call takes."""
    code, at = summing(helper, 1, address, length), IN_REGIONS.get(address, address)
    step, slots = instructions(code), len(code) // 8 - 1
    line = f"step {step} slot {slots} call {helper}; stray by r2 at {at} bytes {min(length, 4096)}\n"
    return trial(f"{NAMES[helper]} of {name}", code + EXIT, 1, CONTENT, line, step)


TRIALS = [
    trial("a store and a load", lddw(1, END - 8) + store(8, 1, 0, 77) + load(8, 0, 1) + EXIT, 0, CONTENT),
    trial("a checksum of what was copied", COPIED, 1, CONTENT),
    trial("a step to the memory", lddw(1, MEMORY) + load(8, 0, 1) + EXIT, 0, CONTENT, "step 3 slot 3 exit\n"),
    trial("a load past the memory", lddw(1, END) + load(8, 0, 1, -7) + EXIT, 1, CONTENT, f"step 2 slot 2 ldxdw r0, [r1-7]; stray by r1 at {END - 7} bytes 8\n", 2),
    trial("a store before it", lddw(1, MEMORY) + store(2, 1, -1, 0) + GOOD, 1, CONTENT, f"step 2 slot 2 sth [r1-1], 0; stray by r1 at {MEMORY - 1} bytes 2\n", 2),
    *(strayed_sum(helper, name, *it) for name, it in NOWHERE.items() for helper in (10, 11)),
    trial("a copy past it", mov(1, 0) + lddw(2, END) + mov(3, 1) + call(2) + EXIT, 1, CONTENT, f"step 4 slot 4 call 2; stray by r2 at {END} bytes 1\n", 4),
]

ROWS = [
    *SUMMED,
    *GOES_ON,
    *OF_MEMORY,
    *STRAYED,
    *INSIDE,
    *ENDS,
    *DISTANCES,
    *(verified(*it) for it in KNOWN),
    *ZEROS,
    *FOOTPRINTS,
    *OTHERS,
    *BLINDS,
    *WITHOUT,
    *NUMBERS,
    *TRIALS,
]

assert len({it.name for it in ROWS}) == len(ROWS)
