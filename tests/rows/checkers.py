"""The checkers in C of examples/checkers and examples/refused: what the verifier says of their stored bytes, and what
those of examples/checkers answer on devices that are good and on devices that aren't.

The bytes are what clang 14.0.6 made of the sources by commands/cc; no compiler is needed here. Budgets are held to the
rule of docs/VERIFIER.md ('Budget'), which stands here once more (`by_rule`). The slots of refused programs were read from
their listings: each is the instruction that breaks the rule.
"""
import struct
import zlib

from notation import SECTOR, TOP, M, Row, S, files, verified

EXAMPLES = TOP / "examples"
SECTORS = 64

# Checkers of examples/checkers, and their budgets.
CHECKERS = {
    "adler": 16797,
    "backup_super": 12,
    "big_endian": 41,
    "bitmap_count": 91542,
    "bitmap_popcount": 2795,
    "block_types": 1495,
    "boot_sector": 57,
    "crc_sector": 34612,
    "directory": 2405,
    "equal_names": 442,
    "extents": 1625,
    "free_list": 2015,
    "inode_table": 1435,
    "journal_scan": 524320,
    "newest_commit": 85,
    "packed_extent": 48,
    "record_sizes": 27,
    "record_stream": 3333,
    "ring_log": 2665,
    "small_sum": 35,
    "sorted_keys": 240,
    "super_block": 39,
    "tested_index": 21,
    "tree_path": 6762,
    "two_copies": 1365,
    "two_tables": 7112,
    "type_counts": 147780,
    "volume_label": 408,
    "xor_sum": 1105,
}

# Functions of examples/refused, their refusals, and the budgets of those that are cured.
REFUSED = {
    "nowhere": ("refused 40 at 5", 780),
    "no_end": ("refused 41 at 1", 4),
    "plain_loop": ("refused 42 at 2", 10180),
    "late_turn": ("refused 42 at 8", 1755),
    "again_called": ("refused 43 at 2", 180235),
    "long_path": ("refused 45 at 0", 72353469),
    "second_parameter": ("refused 50 at 2", 6),
    "one_of_two": ("refused 50 at 20", 29),
    "one_struct": ("refused 50 at 20", 31),
    "answered_address": ("refused 50 at 8", 9),
    "short_copy": ("refused 51 at 9", 15),
    "no_null_test": ("refused 52 at 2", 12),
    "turned_test": ("refused 52 at 16", 1037),
    "inner_loop": ("refused 52 at 36", 2210),
    "written_sector": ("refused 53 at 7", 21),
    # accepted since signed tests cut the range of an index
    "int_index": ("accepted budget 24", 23),
    "short_index": ("refused 54 at 24", 12525),
    "merged_tests": ("refused 54 at 15", 22),
    "counters": ("refused 54 at 22", 14364),
    "pointer_loop": ("refused 55 at 16", 1430),
    "long_name": ("refused 56 at 11", 14),
    "mix_of_address": ("refused 56 at 6", 15),
}

# Refused, without a cured one beside it: a call of a function with a pointer, and a helper of Linux.
ALONE = {"not_inlined": "refused 50 at 20", "linux_helper": "refused 58 at 0"}


# Budgets by the rule

LDDW, JA, EXIT, JEQ, JMP, JMP32, CALL = 0x18, 0x05, 0x95, 0x15, 5, 6, 0x85
AGAIN = struct.pack("<BBhi", 0x85, 0, 0, 3)


def slot_of(code, slot):
    """The bytes of a slot."""
    return code[8 * slot : 8 * slot + 8]


def edges(code, slot):
    """The slots to which control edges lead: those without again edges, and the one of the again edge, if any."""
    opcode, _, offset, _ = struct.unpack("<BBhi", slot_of(code, slot))
    if opcode == EXIT:
        return [], []
    if opcode == JA:
        return [slot + 1 + offset], []
    if opcode & 7 not in (JMP, JMP32) or opcode == CALL:
        return [slot + (2 if opcode == LDDW else 1)], []
    following, target = slot + 1, slot + 1 + offset
    if slot == 0 or slot_of(code, slot - 1) != AGAIN:
        return [following, target], []
    return ([target], [following]) if opcode == JEQ else ([following], [target])


def weight(code, slot):
    """1, and of a local call one more than the longest path of its entry."""
    opcode, registers, _, distance = struct.unpack("<BBhi", slot_of(code, slot))
    return 1 + longest_path(code, slot + 1 + distance) if (opcode, registers) == (CALL, 0x10) else 1


def longest_path(code, entry=0):
    """The greatest weight of a path without again edges, from any slot that is reached from the entry."""
    reached, left = set(), [entry]
    while left:
        slot = left.pop()
        if slot not in reached:
            reached.add(slot)
            left += sum(edges(code, slot), [])
    longest, left = {}, [(slot, False) for slot in reached]
    while left:
        slot, seen = left.pop()
        ways = edges(code, slot)[0]
        if seen:
            longest[slot] = weight(code, slot) + max((longest[it] for it in ways), default=0)
        elif slot not in longest:
            left += [(slot, True), *((it, False) for it in ways)]
    return max(longest.values())


def by_rule(code):
    """(1 + the sum of K over all calls of helper 3) * the longest path of slot 0."""
    calls = [slot for slot in range(1, len(code) // 8) if slot_of(code, slot) == AGAIN]
    limits = [int.from_bytes(slot_of(code, slot - 1)[4:], "little") for slot in calls]
    return (1 + sum(limits)) * longest_path(code)


def accepted(name, path, budget):
    """A row of `verify` for stored bytes with that budget, which has to be that of the rule."""
    code = path.read_bytes()
    rule = by_rule(code)
    answer = f"accepted budget {budget}" if rule == budget else f"the rule says {rule}, and the table {budget}"
    return verified(name, code, answer, SECTORS)


ACCEPTED = [accepted(f"verify checkers/{name}", EXAMPLES / f"checkers/{name}.bpf", CHECKERS[name]) for name in CHECKERS]
CURED = [
    accepted(f"verify refused/{name}_cured", EXAMPLES / f"refused/{name}_cured.bpf", budget)
    for name, (_, budget) in REFUSED.items()
]
UNCURED = [
    verified(f"verify refused/{name}", (EXAMPLES / f"refused/{name}.bpf").read_bytes(), answer, SECTORS)
    for name, answer in [*((name, answer) for name, (answer, _) in REFUSED.items()), *ALONE.items()]
]


# Devices, and what the checkers answer on them


def device(pieces):
    """The content of a device of which these pieces are given, each at its byte position; the rest is zeros."""
    content = bytearray(SECTOR * SECTORS)
    for position, piece in pieces.items():
        content[position : position + len(piece)] = piece
    return bytes(content)


def judged(name, budget, number, pieces, answer=0, codes="-"):
    """A row of a checker on one image: a device written at once, with one mark passed."""
    code = (EXAMPLES / f"{name}.bpf").read_bytes()
    line = f"image 0 cut 2 program 0 answer {answer} codes {codes} choice -\n" if answer else ""
    failing = 1 if answer else 0
    report = (
        "crash report 2\n"
        f"sectors {SECTORS} entries 2 cuts mark bound 0 tears no first no\n"
        f"program 0 slots {len(code) // 8} budget {budget}\n"
        f"{line}images 1 failing {failing} lines {failing}\n"
    )
    content = files([S(0, device(pieces)), M("written")], code)
    return Row(f"{name} on device {number}", f"explore log p0 --sectors {SECTORS} --cuts mark --bound 0", content, report, failing)


def u16(*numbers):
    return struct.pack(f"<{len(numbers)}H", *numbers)


def u32(*numbers):
    return struct.pack(f"<{len(numbers)}I", *numbers)


def u64(*numbers):
    return struct.pack(f"<{len(numbers)}Q", *numbers)


def crc32c(content):
    """The CRC-32C of bytes, by polynomial division; that of "123456789" is 0xe3069283 (RFC 3720, B.4 has others)."""
    crc = 0xFFFFFFFF
    for byte in content:
        crc ^= byte
        for _ in range(8):
            crc = crc >> 1 ^ (0x82F63B78 if crc & 1 else 0)
    return crc ^ 0xFFFFFFFF


assert crc32c(b"123456789") == 0xE3069283

TEXT = bytes(range(256)) * 2
SUMMED = TEXT[:508]
WORDS = [0x9E3779B97F4A7C15 * it % 2**64 for it in range(1, 65)]
XORED = 0
for WORD in WORDS[:63]:
    XORED ^= WORD
SUMS = sum(WORDS[:63]) % 2**64
BITS = sum(bin(it).count("1") for it in WORDS)


def with_(pieces, *changes):
    """Pieces with others put over them."""
    return {**pieces, **dict(changes)}


SUPER = {0: b"CFS1", 4: u16(3), 6: b"\x09", 8: u64(64)}
BOOT = {11: u16(512), 13: b"\x01", 14: u16(1), 16: b"\x02", 17: u16(16), 19: u16(64), 21: b"\xf8", 22: u16(1)}
FREE = {8: u32(5, 3), **{512 * at: b"FREE" + u32(then) for at, then in [(5, 9), (9, 63), (63, 0)]}}
JOURNAL = {8: u64(100), **{512 * at: b"JRNL" + u32(0) + u64(99 + at) for at in range(1, 6)}}
RING = {
    0: u32(1, 8, 10, 2, 8, 77),
    **{512 * (8 + at): struct.pack(">II", 0xC03B3998, number) for at, number in [(8, 77), (9, 78), (0, 79), (1, 80)]},
}
ENTRIES = {1536: u32(2) + u16(12) + b"\x04\x02name", 1548: u32(0) + u16(500) + b"\x00\x09"}
NAMES = {0: u16(40, 496), 40: b"sixteen letters!", 496: b"sixteen letters!"}
TYPES = {512: bytes(it % 8 for it in range(512)), 64: u16(*[64] * 8)}
BLOCKS = {
    512: b"\x01" + bytes(7) + u64(63),
    1024: b"\x02" + bytes(7) + u64(3, 4),
    1536: b"\x03\x00" + u16(488),
    2048: b"\x04\x03",
}
INODES = {at: u16(0o100644, 1) + u32(5, 63) for at in (1024, 512 * 9 + 384)}
BIG = {0: b"XFSB", 8: (64).to_bytes(8, "big"), 16: (5).to_bytes(2, "big"), 24: (1).to_bytes(8, "big")}
EXTENTS = {512: u64(*[(4 << 48) | it for it in range(61)], 0, 63 | (1 << 48), 0)}


def commit(generation, root, size=7, level=0, flaw=0):
    return b"\x02\xb0\xad\x1b" + u32((generation ^ root ^ size ^ flaw) % 2**32) + u64(generation, root, size) + bytes([level])


COMMITS = {32 * 512: commit(5, 70, level=9), 33 * 512: commit(6, 40), 40 * 512: b"root"}


def records(count):
    return b"".join(u64(it) + u32(24, 7) + u64(it ^ 24 ^ 7) for it in range(1, count + 1))


def node(level, own, entries):
    return u16(level, len(entries)) + u32(own) + b"".join(u64(key) + u32(child, 0) for key, child in entries)


TREE = {
    4: u32(10),
    8: u64(77),
    512 * 10: node(1, 10, [(5, 11), (47, 12)]),
    512 * 12: node(0, 12, [(it, 0) for it in range(47, 78)]),
}

# For each checker the devices, with the answer and the codes where one fails.
DEVICES = {
    "super_block": [
        (SUPER,),
        (with_(SUPER, (0, b"XFS1")), 1),
        (with_(SUPER, (4, u16(4))), 2),
        (with_(SUPER, (6, b"\x0a")), 3),
        (with_(SUPER, (8, u64(65))), 4),
    ],
    "boot_sector": [
        (BOOT,),
        (with_(BOOT, (11, u16(1024))), 2),
        (with_(BOOT, (13, b"\x03")), 3),
        (with_(BOOT, (19, u16(65))), 4),
        (with_(BOOT, (22, u16(0))), 5),
    ],
    "backup_super": [({0: TEXT, 63 * 512: TEXT},), ({0: TEXT, 63 * 512: TEXT[:511]}, 1, "63")],
    "two_copies": [
        ({0: u64(*WORDS), 512: u64(1, *WORDS[1:])},),
        ({0: u64(*WORDS), 512: u64(*WORDS[:63])}, 2, "63"),
        ({0: u64(*WORDS), 512: u64(*WORDS[:1])}, 2, "1"),
    ],
    "two_tables": [
        ({512: u64(*WORDS[:63], SUMS), 1024: u64(*WORDS[:63], SUMS)},),
        ({512: u64(*WORDS[:63], SUMS - 1), 1024: u64(*WORDS[:63], SUMS)}, 2),
        ({512: u64(*WORDS[:63], SUMS), 1024: u64(1, *WORDS[1:63], SUMS)}, 3),
    ],
    "xor_sum": [({0: u64(*WORDS[:63], XORED)},), ({0: u64(*WORDS[:63], XORED ^ 1)}, 2)],
    "crc_sector": [
        ({0: SUMMED + u32(crc32c(SUMMED))},),
        ({0: b"\x01" + SUMMED[1:] + u32(crc32c(SUMMED))}, 1),
        ({}, 1),
    ],
    "bitmap_count": [({16: u32(BITS), 512: u64(*WORDS)},), ({16: u32(4096), 512: b"\xff" * 512},), ({16: u32(1)}, 2)],
    "bitmap_popcount": [({16: u32(BITS), 512: u64(*WORDS)},), ({16: u32(4096), 512: b"\xff" * 512},), ({16: u32(1)}, 2)],
    "free_list": [
        (FREE,),
        (with_(FREE, (9 * 512, b"free")), 1, "9"),
        (with_(FREE, (12, u32(4))), 2),
        (with_(FREE, (63 * 512 + 4, u32(5))), 3),
        (with_(FREE, (63 * 512 + 4, u32(64))), 1, "64"),
    ],
    "sorted_keys": [
        ({8: u64(189), 512: u64(*range(0, 192, 3))},),
        ({8: u64(0), 512: u64(*range(0, 192, 3))},),
        ({8: u64(96), 512: u64(*range(0, 192, 3))},),
        ({8: u64(4), 512: u64(*range(0, 192, 3))}, 1),
    ],
    "journal_scan": [(JOURNAL,), (with_(JOURNAL, (3 * 512 + 8, u64(103))), 1, "3"), ({}, 2)],
    "ring_log": [
        (RING,),
        (with_(RING, (8, u32(0))), 2),
        (with_(RING, (8, u32(57))), 2),
        (with_(RING, (12, u32(10))), 3),
        (with_(RING, (8 * 512, b"\0")), 4),
        (with_(RING, (20, u32(76))), 5),
    ],
    "tested_index": [({4: u32(127), 1020: u32(1)},), ({4: u32(128), 1020: u32(1)}, 2), ({4: u32(126), 1020: u32(1)}, 3)],
    "directory": [
        (ENTRIES,),
        (with_(ENTRIES, (1552, u16(492))), 2),
        (with_(ENTRIES, (1552, u16(496)), (2044, u32(0))), 1),
        (with_(ENTRIES, (1540, u16(10))), 2),
        (with_(ENTRIES, (1552, u16(504))), 2),
        (with_(ENTRIES, (1542, b"\x05")), 3),
        (with_(ENTRIES, (1543, b"\x08")), 4),
    ],
    "equal_names": [(NAMES,), (with_(NAMES, (511, b"?")), 2), (with_(NAMES, (2, u16(497))), 1)],
    "type_counts": [(TYPES,), (with_(TYPES, (74, u16(63))), 2, "5"), (with_(TYPES, (1023, b"\x08")), 1)],
    "block_types": [
        (BLOCKS,),
        (with_(BLOCKS, (63 * 512 + 511, b"\x01")), 1),
        (with_(BLOCKS, (520, u64(64))), 2),
        (with_(BLOCKS, (1032, u64(5))), 3),
        (with_(BLOCKS, (1538, u16(489))), 4),
        (with_(BLOCKS, (2049, b"\x04")), 5),
        (with_(BLOCKS, (2560, b"\x05")), 6),
    ],
    "record_sizes": [({0: u32(3, 12)},), ({0: u32(3, 13)}, 2), ({0: u32(6, 1)}, 1), ({0: u32(0, 2**32 - 1)}, 2)],
    "inode_table": [
        (INODES,),
        (with_(INODES, (1026, u16(0))), 2),
        (with_(INODES, (512 * 9 + 392, u32(64))), 3),
        (with_(INODES, (512 * 9 + 388, u32(0, 64))),),
    ],
    "big_endian": [
        (BIG,),
        (with_(BIG, (0, b"XFSA")), 1),
        (with_(BIG, (15, b"\x41")), 2),
        (with_(BIG, (8, b"\x01")), 2),
        (with_(BIG, (17, b"\x06")), 3),
        (with_(BIG, (17, b"\x00")), 3),
        (with_(BIG, (31, b"\x00")), 4),
    ],
    "extents": [
        (EXTENTS,),
        (with_(EXTENTS, (512 + 8 * 63, u64(63 | (2 << 48)))), 2, "63"),
        (with_(EXTENTS, (512, u64(64 | (1 << 48)))), 2, "0"),
        (with_(EXTENTS, (512, u64((1 << 47) | (1 << 48)))), 2, "0"),
    ],
    "packed_extent": [
        ({512: u64(8 | 4 << 40 | 3 << 56)},),
        ({},),
        ({512: u64(8 | 6 << 40 | 3 << 56)}, 1),
        ({512: u64(2 | 4 << 40)}, 2),
        ({512: u64(8 | 4 << 40 | 0x80 << 56)}, 3),
        ({512: u64(8 | 4 << 40 | 1 << 56)}, 4),
    ],
    "small_sum": [({0: u64(*WORDS[:4], sum(WORDS[:4]) % 2**64)},), ({0: u64(1, 2, 3, 4, 11)}, 1)],
    "adler": [({0: SUMMED + u32(zlib.adler32(SUMMED))},), ({0: SUMMED + u32(zlib.adler32(SUMMED) ^ 1 << 31)}, 1)],
    "newest_commit": [
        (COMMITS,),
        ({33 * 512: commit(6, 40), 40 * 512: b"root"},),
        ({32 * 512: commit(6, 40), 40 * 512: b"root"},),
        ({}, 1),
        (with_(COMMITS, (32 * 512, b"none"), (33 * 512, commit(0, 40))), 3, "0"),
        (with_(COMMITS, (33 * 512, commit(6, 40, level=8))), 4),
        (with_(COMMITS, (33 * 512, commit(6, 64))), 5),
        (with_(COMMITS, (33 * 512, commit(6, 40, flaw=1))), 6),
        (with_(COMMITS, (33 * 512, commit(6, 41))), 7),
        (with_(COMMITS, (33 * 512, commit(4, 40))), 4),
    ],
    "record_stream": [
        ({512: records(100)},),
        ({512: records(3)},),
        ({512: records(40) + u64(42)}, 2),
        ({512: records(21) + u64(22) + u32(24, 7) + u64(22)}, 3),
        ({}, 4),
    ],
    "volume_label": [
        ({120: b"a crash volume"},),
        ({120: b"fifteen letters"},),
        ({120: b"sixteen letters!"}, 2),
        ({120: b"a\0b"}, 1),
        ({120: b"line\n"}, 1),
        ({120: b"\x7f"}, 1),
    ],
    "tree_path": [
        (TREE,),
        (with_(TREE, (8, u64(47))),),
        (with_(TREE, (4, u32(64))), 1),
        (with_(TREE, (512 * 12 + 4, u32(11))), 2),
        (with_(TREE, (512 * 12, u16(1))), 2),
        (with_(TREE, (512 * 12 + 2, u16(32))), 2),
        (with_(TREE, (8, u64(4))), 3),
        (with_(TREE, (8, u64(78))), 4),
    ],
}

# Devices, with their answers, for functions of examples/refused whose cure is an address that is tested.
CURED_DEVICES = {
    "inner_loop": [
        ({512: u64(6, 1, 2, 3), 992: u64(2**64 - 1, 0, 2**64 - 2, 1)},),
        ({512: u64(6, 1, 2, 4)}, 3),
        ({992: u64(6, 0, 2, 3)}, 3),
    ],
    "int_index": [
        ({4: u32(127), 1020: u32(1)},),
        ({4: u32(128), 1020: u32(1)}, 2),
        ({4: u32(2**32 - 1), 508: u32(1)}, 2),
        ({4: u32(126), 1020: u32(1)}, 3),
    ],
    "merged_tests": [
        ({8: u16(4096), 512: u16(1)},),
        ({8: u16(4351), 1022: u16(1)},),
        ({8: u16(4095), 510: u16(1)}, 2),
        ({8: u16(4352), 1024: u16(1)}, 2),
        ({8: u16(4350), 1022: u16(1)}, 3),
    ],
    "turned_test": [
        ({8: u64(XORED), 32: u64(*WORDS[:60]), 504: u64(WORDS[60] ^ WORDS[61] ^ WORDS[62] ^ WORDS[59])},),
        ({8: u64(XORED), 32: u64(*WORDS[:60])}, 2),
    ],
}

JUDGED = [
    judged(f"checkers/{name}", CHECKERS[name], number, *it) for name in CHECKERS for number, it in enumerate(DEVICES[name])
] + [
    judged(f"refused/{name}_cured", REFUSED[name][1], number, *it)
    for name in CURED_DEVICES
    for number, it in enumerate(CURED_DEVICES[name])
]

ROWS = [*ACCEPTED, *CURED, *UNCURED, *JUDGED]
