"""Each instruction as bytes and as text, both ways, and bytes that are no program.

The opcodes are those of the tables in docs/MACHINE.md (RFC 9669, base and divmul groups), written down once more.
"""
from notation import Assembly, Row, code, lines, named, refused

# name: opcodes of ALU with imm and with register, of ALU64 with imm and with register; offset
ARITHMETIC = {
    "add": (0x04, 0x0C, 0x07, 0x0F, 0),
    "sub": (0x14, 0x1C, 0x17, 0x1F, 0),
    "mul": (0x24, 0x2C, 0x27, 0x2F, 0),
    "div": (0x34, 0x3C, 0x37, 0x3F, 0),
    "sdiv": (0x34, 0x3C, 0x37, 0x3F, 1),
    "or": (0x44, 0x4C, 0x47, 0x4F, 0),
    "and": (0x54, 0x5C, 0x57, 0x5F, 0),
    "lsh": (0x64, 0x6C, 0x67, 0x6F, 0),
    "rsh": (0x74, 0x7C, 0x77, 0x7F, 0),
    "mod": (0x94, 0x9C, 0x97, 0x9F, 0),
    "smod": (0x94, 0x9C, 0x97, 0x9F, 1),
    "xor": (0xA4, 0xAC, 0xA7, 0xAF, 0),
    "mov": (0xB4, 0xBC, 0xB7, 0xBF, 0),
    "arsh": (0xC4, 0xCC, 0xC7, 0xCF, 0),
}

# name: opcodes of JMP with imm and with register, of JMP32 with imm and with register
JUMPS = {
    "jeq": (0x15, 0x1D, 0x16, 0x1E),
    "jgt": (0x25, 0x2D, 0x26, 0x2E),
    "jge": (0x35, 0x3D, 0x36, 0x3E),
    "jset": (0x45, 0x4D, 0x46, 0x4E),
    "jne": (0x55, 0x5D, 0x56, 0x5E),
    "jsgt": (0x65, 0x6D, 0x66, 0x6E),
    "jsge": (0x75, 0x7D, 0x76, 0x7E),
    "jlt": (0xA5, 0xAD, 0xA6, 0xAE),
    "jle": (0xB5, 0xBD, 0xB6, 0xBE),
    "jslt": (0xC5, 0xCD, 0xC6, 0xCE),
    "jsle": (0xD5, 0xDD, 0xD6, 0xDE),
}

# loads: from memory, and with the sign; stores of an imm, and of a register
LOADS = {"ldxw": 0x61, "ldxh": 0x69, "ldxb": 0x71, "ldxdw": 0x79, "ldxsw": 0x81, "ldxsh": 0x89, "ldxsb": 0x91}
STORES = {"stw": 0x62, "sth": 0x6A, "stb": 0x72, "stdw": 0x7A}
REGISTER_STORES = {"stxw": 0x63, "stxh": 0x6B, "stxb": 0x73, "stxdw": 0x7B}

ENDS = {"le": 0xD4, "be": 0xDC, "swap": 0xD7}


def slot(opcode, dst=0, src=0, offset=0, imm=0):
    """The digits of a slot."""
    fields = bytes([opcode, dst | src << 4]) + offset.to_bytes(2, "little", signed=True)
    return (fields + imm.to_bytes(4, "little", signed=True)).hex()


def arithmetic():
    """Yields instructions of arithmetic, each as text and as bytes."""
    for name, (imm32, register32, imm64, register64, offset) in ARITHMETIC.items():
        yield f"{name}32 r1, -5", slot(imm32, 1, 0, offset, -5)
        yield f"{name}32 r3, r10", slot(register32, 3, 10, offset)
        yield f"{name}64 r9, 2147483647", slot(imm64, 9, 0, offset, 2147483647)
        yield f"{name}64 r10, r2", slot(register64, 10, 2, offset)


def one_operand():
    """Yields instructions with one operand, each as text and as bytes."""
    yield "neg32 r3", slot(0x84, 3)
    yield "neg64 r4", slot(0x87, 4)
    for bits in [8, 16]:
        yield f"movsx{bits}to32 r1, r2", slot(0xBC, 1, 2, bits)
    for bits in [8, 16, 32]:
        yield f"movsx{bits}to64 r1, r2", slot(0xBF, 1, 2, bits)
    for name, opcode in ENDS.items():
        for bits in [16, 32, 64]:
            yield f"{name}{bits} r9", slot(opcode, 9, imm=bits)


def jumps():
    """Yields jumps and calls, each as text and as bytes."""
    for name, (imm, register, imm32, register32) in JUMPS.items():
        yield f"{name} r1, -5, +3", slot(imm, 1, 0, 3, -5)
        yield f"{name} r1, r2, -32768", slot(register, 1, 2, -32768)
        yield f"{name}32 r1, 2147483647, +32767", slot(imm32, 1, 0, 32767, 2147483647)
        yield f"{name}32 r1, r2, +0", slot(register32, 1, 2)
    yield "ja -4", slot(0x05, offset=-4)
    yield "ja +1", "0500010000000000"
    yield "ja32 -2147483648", slot(0x06, imm=-(2**31))
    yield "call 1", slot(0x85, imm=1)
    yield "call -1", slot(0x85, imm=-1)
    yield "callf +0", slot(0x85, 0, 1)
    yield "callf -2", "85100000feffffff"
    yield "callf +2147483647", slot(0x85, 0, 1, 0, 2**31 - 1)
    yield "callf -2147483648", slot(0x85, 0, 1, 0, -(2**31))
    yield "exit", slot(0x95)


def memory():
    """Yields loads and stores, each as text and as bytes."""
    for name, opcode in LOADS.items():
        yield f"{name} r0, [r1+16]", slot(opcode, 0, 1, 16)
        yield f"{name} r9, [r10-512]", slot(opcode, 9, 10, -512)
    yield "ldxsb r0, [r1-1]", "9110ffff00000000"
    for name, opcode in STORES.items():
        yield f"{name} [r10-8], -1", slot(opcode, 10, 0, -8, -1)
        yield f"{name} [r3+32767], 7", slot(opcode, 3, 0, 32767, 7)
    for name, opcode in REGISTER_STORES.items():
        yield f"{name} [r2+0], r3", slot(opcode, 2, 3)
        yield f"{name} [r10-32768], r0", slot(opcode, 10, 0, -32768)


def wide():
    """Yields instructions of two slots, each as text and as bytes."""
    yield "lddw r0, 0", slot(0x18) + slot(0)
    yield "lddw r0, 9223372036854775808", "1800000000000000 0000000000000080"
    yield "lddw r10, 18446744073709551615", slot(0x18, 10, imm=-1) + slot(0, imm=-1)
    yield "lddw r3, 4294967296", slot(0x18, 3) + slot(0, imm=1)


# The examples of docs/MACHINE.md, with their bytes as they stand there.
EXAMPLES = {
    "mov64 r1, 0": "b701000000000000",
    "call 1": "8500000001000000",
    "stb [r10-1], 7": "720affff07000000",
    "stdw [r10-8], -1": "7a0af8ffffffffff",
    "ldxdw r0, [r1+16]": "7910100000000000",
    "lddw r0, 9223372036854775808": "1800000000000000 0000000000000080",
    "sdiv32 r1, r2": "3c21010000000000",
    "movsx16to32 r1, r2": "bc21100000000000",
    "swap64 r9": "d709000040000000",
    "ja32 -4": "06000000fcffffff",
    "jeq r1, -5, +3": "15010300fbffffff",
    "jsle32 r1, r2, +0": "de21000000000000",
    "stxh [r2+0], r3": "6b32000000000000",
}

INSTRUCTIONS = {**dict([*arithmetic(), *one_operand(), *jumps(), *memory(), *wide()]), **EXAMPLES}


def both_ways(text, digits):
    return [
        Row(f"asm: {text}", "asm s", {"s": text + "\n"}, code(digits)),
        Row(f"list: {text}", "list p", {"p": code(digits)}, text + "\n"),
    ]


# Programs of the examples, as bytes.
FIRST_BYTE = """
    b701000000000000 8500000001000000 5500020000000000 b700000000000000
    9500000000000000 7100000000000000 9500000000000000
    """
BYTE_64 = """
    b701000000000000 8500000001000000 5500020000000000 b700000000000000
    9500000000000000 7100400000000000 9500000000000000
    """
ENDS_AGREE = """
    b701000000000000 8500000001000000 5500020000000000 b700000000000000
    9500000000000000 7101000000000000 7102ff0100000000 b700000000000000
    1d21010000000000 b700000001000000 9500000000000000
    """
MARKS_PASSED = "7910100000000000 9500000000000000"
REPORT_CODES = """
    b706000000000000 b701000011000000 8500000003000000 1500040000000000
    bf61000000000000 8500000004000000 0706000001000000 0500f9ff00000000
    b700000001000000 9500000000000000
    """
SUM_WORDS = """
    b706000000000000 b701000000000000 8500000001000000 5500020000000000
    b700000000000000 9500000000000000 bf07000000000000 b708000000000000
    b701000040000000 8500000003000000 1500090000000000 3506080040000000
    bf62000000000000 6702000003000000 bf73000000000000 0f23000000000000
    7934000000000000 4f48000000000000 0706000001000000 0500f4ff00000000
    b700000000000000 9500000000000000
    """
NESTED_LOOPS = """
    b701000002000000 8500000003000000 1500040000000000 b701000003000000
    8500000003000000 1500faff00000000 0500fcff00000000 b700000000000000
    9500000000000000
    """
MASKED_INDEX = """
    b701000000000000 8500000001000000 5500020000000000 b700000000000000
    9500000000000000 bf07000000000000 b706000000000000 b701000003000000
    8500000003000000 1500050000000000 bf73000000000000 0f63000000000000
    7136000000000000 5706000007000000 0500f8ff00000000 b700000000000000
    9500000000000000
    """

PROGRAMS = {
    "first_byte": FIRST_BYTE,
    "byte_64": BYTE_64,
    "ends_agree": ENDS_AGREE,
    "marks_passed": MARKS_PASSED,
    "report_codes": REPORT_CODES,
    "sum_words": SUM_WORDS,
    "nested_loops": NESTED_LOOPS,
    "masked_index": MASKED_INDEX,
}


def listing(text):
    """The listing of a program that is written without labels: its instructions without comments and indents."""
    stripped = [line.split(";")[0].strip() for line in text.split("\n")]
    return "".join(f"{line}\n" for line in stripped if line)


def whole_program(name, digits):
    text = named(name)
    return [
        Row(f"asm {name}", "asm s", {"s": str(text)}, code(digits)),
        Row(f"list {name}", "list p", {"p": code(digits)}, listing(text)),
        Row(f"asm {name}, as it is listed", "asm s", {"s": listing(text)}, code(digits)),
    ]


REPORT_CODES_WITH_LABELS = lines("""
        mov64 r6, 0
    turn:
        mov64 r1, 17
        call 3
        jeq r0, 0, done
        mov64 r1, r6
        call 4
        add64 r6, 1
        ja turn
    done:
        mov64 r0, 1
        exit
    """)

# Every instruction in one program.
ALL = Row(
    "asm and list: every instruction in one program",
    "list p",
    {"p": Assembly("".join(f"{text}\n" for text in INSTRUCTIONS))},
    "".join(f"{text}\n" for text in INSTRUCTIONS),
)


# Each opcode in a slot of zeros


def listed_zeros():
    """What a slot of zeros but for its opcode is listed as, by opcode."""
    found = {}
    for name, (imm32, register32, imm64, register64, offset) in ARITHMETIC.items():
        if offset == 0:
            found[imm32], found[register32] = f"{name}32 r0, 0", f"{name}32 r0, r0"
            found[imm64], found[register64] = f"{name}64 r0, 0", f"{name}64 r0, r0"
    for name, (imm, register, imm32, register32) in JUMPS.items():
        found[imm], found[register] = f"{name} r0, 0, +0", f"{name} r0, r0, +0"
        found[imm32], found[register32] = f"{name}32 r0, 0, +0", f"{name}32 r0, r0, +0"
    found |= {opcode: f"{name} r0, [r0+0]" for name, opcode in LOADS.items()}
    found |= {opcode: f"{name} [r0+0], 0" for name, opcode in STORES.items()}
    found |= {opcode: f"{name} [r0+0], r0" for name, opcode in REGISTER_STORES.items()}
    found |= {0x84: "neg32 r0", 0x87: "neg64 r0", 0x05: "ja +0", 0x06: "ja32 +0", 0x85: "call 0", 0x95: "exit"}
    return found


def opcode_row(opcode, listed):
    """A slot of zeros but for its opcode; the byte swaps want a number of bits, 0x18 a second half."""
    name, content = f"opcode 0x{opcode:02x} in a slot of zeros", {"p": bytes([opcode]) + bytes(7)}
    if opcode in listed:
        return Row(name, "list p", content, listed[opcode] + "\n")
    number = 24 if opcode in ENDS.values() else 25 if opcode == 0x18 else 22
    return refused(name, "list p", content, f"refused {number} at 0")


# Bytes that are no program: their digits, and the refusal

EXIT = "9500000000000000"

NO_PROGRAMS = {
    "no bytes": ("", "21 at 0"),
    "one byte": ("95", "20 at 0"),
    "7 bytes": ("b7000000000000", "20 at 0"),
    "9 bytes": (f"{EXIT} b7", "20 at 1"),
    "7 zeros": ("00000000000000", "20 at 0"),
    "9 zeros": ("000000000000000000", "20 at 1"),
    "a wide one after ja +0": ("0500000000000000 1800000000000000", "25 at 1"),
    "mov64 r11, 0 before ja +0": ("b70b000000000000 0500000000000000", "23 at 0"),
    "a call of kind 2 after ja +0": ("0500000000000000 8520000000000000", "23 at 1"),
    "exit with a destination after ja +0": ("0500000000000000 9501000000000000", "24 at 1"),
    "15 bytes": (f"{EXIT} b7000000000000", "20 at 1"),
    "7 bytes of no instruction": ("ffffffffffffff", "20 at 0"),
    "an opcode after a good slot": (f"{EXIT} ff00000000000000", "22 at 1"),
    "opcode before register": ("ffff000000000000", "22 at 0"),
    "mov64 r11, 0": ("b70b000000000000", "23 at 0"),
    "mov64 r15, 0": ("b70f000000000000", "23 at 0"),
    "mov64 r0, r11": ("bfb0000000000000", "23 at 0"),
    "jeq r11, 0, +0": ("150b000000000000", "23 at 0"),
    "jeq r0, r11, +0": ("1db0000000000000", "23 at 0"),
    "ldxb r11, [r0+0]": ("710b000000000000", "23 at 0"),
    "ldxb r0, [r11+0]": ("71b0000000000000", "23 at 0"),
    "stb [r11+0], 0": ("720b000000000000", "23 at 0"),
    "stxb [r0+0], r11": ("73b0000000000000", "23 at 0"),
    "neg64 r11": ("870b000000000000", "23 at 0"),
    "le16 r11": ("d40b000010000000", "23 at 0"),
    "lddw r11, 0": ("180b000000000000 0000000000000000", "23 at 0"),
    "a call of kind 2": (f"{EXIT} 8520000000000000", "23 at 1"),
    "a call of kind 15": ("85f0000000000000", "23 at 0"),
    "a 64-bit immediate of kind 1": ("1810000000000000 0000000000000000", "23 at 0"),
    "a 64-bit immediate of kind 6": ("1860000000000000 0000000000000000", "23 at 0"),
    "register before a field": ("b71b000000000000", "23 at 0"),
    "register before second half": ("180b000000000000", "23 at 0"),
    "mov64 imm with a source": ("b710000000000000", "24 at 0"),
    "mov64 imm with a source of 15": ("b7f0000000000000", "24 at 0"),
    "mov64 imm with an offset": ("b700010000000000", "24 at 0"),
    "mov64 register with an imm": ("bf10000001000000", "24 at 0"),
    "movsx of 24 bits": ("bf10180000000000", "24 at 0"),
    "movsx of 32 bits to 32": ("bc10200000000000", "24 at 0"),
    "movsx of 64 bits": ("bf10400000000000", "24 at 0"),
    "movsx of an imm": ("b700080001000000", "24 at 0"),
    "div64 with offset 2": ("3700020001000000", "24 at 0"),
    "mod32 with offset -1": ("9c10ffff00000000", "24 at 0"),
    "add64 with offset 1": ("0700010000000000", "24 at 0"),
    "add64 register with an imm": ("0f10000001000000", "24 at 0"),
    "neg64 with a source": ("8710000000000000", "24 at 0"),
    "neg64 with an imm": ("8700000001000000", "24 at 0"),
    "le of 8 bits": ("d400000008000000", "24 at 0"),
    "be of 0 bits": ("dc00000000000000", "24 at 0"),
    "swap of 128 bits": ("d700000080000000", "24 at 0"),
    "le16 with an offset": ("d400010010000000", "24 at 0"),
    "le16 with a source": ("d410000010000000", "24 at 0"),
    "ja with a destination": ("0501000000000000", "24 at 0"),
    "ja with a destination of 11": ("050b000000000000", "24 at 0"),
    "ja with an imm": ("0500000001000000", "24 at 0"),
    "ja32 with an offset": ("0600010000000000", "24 at 0"),
    "jeq register with an imm": ("1d10000001000000", "24 at 0"),
    "jeq imm with a source": ("1510000000000000", "24 at 0"),
    "call with a destination": ("8501000001000000", "24 at 0"),
    "call with an offset": ("8500010001000000", "24 at 0"),
    "callf with a destination": ("8511000001000000", "24 at 0"),
    "callf with an offset": ("8510010001000000", "24 at 0"),
    "exit with a destination": (f"{EXIT} 9501000000000000", "24 at 1"),
    "exit with an imm": ("9500000001000000", "24 at 0"),
    "exit with a source": ("9510000000000000", "24 at 0"),
    "ldxb with an imm": ("7110000001000000", "24 at 0"),
    "stb with a source": ("7210000000000000", "24 at 0"),
    "stxb with an imm": ("7310000001000000", "24 at 0"),
    "lddw with an offset": ("1800010000000000 0000000000000000", "24 at 0"),
    "a field before second half": ("1800010000000000", "24 at 0"),
    "lddw as the last slot": (f"{EXIT} 1800000000000000", "25 at 1"),
    "a second half with an opcode": ("1800000000000000 9500000000000000", "25 at 0"),
    "a second half with registers": ("1800000000000000 0001000000000000", "25 at 0"),
    "a second half with an offset": ("1800000000000000 0000010000000000", "25 at 0"),
    "a second half that is wide itself": ("1800000000000000 1800000000000000 0000000000000000", "25 at 0"),
    "the first fault by slot": ("b70b000000000000 ff00000000000000", "23 at 0"),
    "a second half is no slot of its own": ("1800000000000000 00000000ffffffff ff00000000000000", "22 at 2"),
}


def no_program(name, digits, error):
    content = {"p": code(digits)}
    return [
        refused(f"bytes: {name}", "list p", content, f"refused {error}"),
        refused(f"bytes: {name}, verified", "verify p --sectors 4", content, f"refused {error}"),
    ]


# A program with a wide instruction in the middle, cut at each of its bytes: what is left is no whole number of slots, or none,
# or ends in the first half of the wide one, or is the program of the instructions that are whole.
CUT = {
    "mov64 r1, 0": "b701000000000000",
    "call 1": "8500000001000000",
    "jne r0, 0, +3": "5500030000000000",
    "lddw r0, 4294967296": "1800000000000000 0000000001000000",
    "exit": EXIT,
    "ldxb r0, [r0+0]": "7100000000000000",
}


def cut_row(length):
    """The first bytes of that number of the program."""
    name, content = f"bytes: a program cut at byte {length}", code("".join(CUT.values()))[:length]
    slots = length // 8
    listed, begins = "", 0
    for text, digits in CUT.items():
        ends = begins + len(code(digits)) // 8
        if length % 8 == 0 and begins < slots < ends:
            return refused(name, "list p", {"p": content}, f"refused 25 at {begins}")
        listed += f"{text}\n" if ends <= slots else ""
        begins = ends
    if length % 8 or not length:
        return refused(name, "list p", {"p": content}, f"refused {20 if length else 21} at {slots}")
    return Row(name, "list p", {"p": content}, listed)


# How long a program may be


def jumps_of(count, tail=b""):
    return bytes.fromhex("0500000000000000") * count + tail


LENGTHS = [
    Row("4,096 slots", "list p", {"p": jumps_of(4096)}, "ja +0\n" * 4096),
    refused("4,097 slots", "list p", {"p": jumps_of(4097)}, "refused 21 at 0"),
    refused("4,097 slots, the first of which is none", "list p", {"p": b"\xff" * 8 * 4097}, "refused 21 at 0"),
    refused("4,097 slots and a byte", "list p", {"p": jumps_of(4097, b"\0")}, "refused 20 at 4097"),
    refused("4,096 slots and 7 bytes", "list p", {"p": jumps_of(4096, bytes(7))}, "refused 20 at 4096"),
    refused("the last of 4,096 slots cut", "list p", {"p": jumps_of(4096)[:-1]}, "refused 20 at 4095"),
    refused("lddw as the last of 4,096 slots", "list p", {"p": jumps_of(4095, b"\x18" + bytes(7))}, "refused 25 at 4095"),
    Row("a megabyte that is no program", "list p", {"p": bytes(2**20)}, status=2, error="refused 21 at 0"),
]

ROWS = [
    *(row for text, digits in INSTRUCTIONS.items() for row in both_ways(text, digits)),
    *(row for name, digits in PROGRAMS.items() for row in whole_program(name, digits)),
    Row("asm report_codes, with labels", "asm s", {"s": REPORT_CODES_WITH_LABELS}, code(REPORT_CODES)),
    ALL,
    *(opcode_row(opcode, listed_zeros()) for opcode in range(256)),
    *(row for name, (digits, error) in NO_PROGRAMS.items() for row in no_program(name, digits, error)),
    *(cut_row(length) for length in range(len(code("".join(CUT.values()))) + 1)),
    *LENGTHS,
]
