"""The checkers of whole formats in examples/checkers, of databases and of file systems: what the verifier says of them, the reports of
their logs, each a trace beside its report, and what those of databases answer where something of the last image is changed.

The reports are by model.py and machine_model.py; stored.py writes them. Places and answers of changes were written down by hand.
"""
import hashlib
import struct
import zlib
from dataclasses import dataclass, replace

import machine_model
from commands.cc.mutants import filled_sectors
from commands.record import trace_log
from model import Checker, Run, explored
from notation import SECTOR, TOP, Long, M, Row, S, entries_of, explore
from rows.checkers import by_rule, u16, u32, u64

FOLDER = TOP / "examples/checkers"
# The most sectors of a device without `--large`.
USUAL = 16384


@dataclass(frozen=True)
class Format:
    """A checker: its budget and how many of its slots are guarded, the sectors of its device, and what each log's run is given."""

    budget: int
    guards: int
    sectors: int
    runs: dict

    def options(self):
        """What a command takes for such a checker."""
        return "--guards --large" if self.sectors > USUAL else "--guards"


FORMATS = {
    "lmdb": Format(
        115_999_015,
        22,
        88,
        {"right": {"bound": 2}, "no_sync": {}, "no_meta_sync": {}, "wrong_order": {}},
    ),
    "rollback_journal": Format(
        590_348_851,
        51,
        16,
        {"right": {"bound": 2}, "no_sync": {}, "wrong_order": {}},
    ),
    # Entry 5 of the logs of ext4 and entry 3 of those of fat is the mark that the file system is there.
    "ext4": Format(
        306_777_240,
        59,
        4096,
        {
            "right": {"cuts": "flush", "by": "write", "first": 6},
            "no_flush": {"cuts": "mark", "by": "write", "first": 6},
            "in_place": {"cuts": "flush", "by": "write", "first": 6},
        },
    ),
    "fat": Format(
        196_804_960,
        7,
        4400,
        {"right": {"bound": 2, "first": 4}, "entry_first": {"first": 4}, "freed_first": {"first": 4}},
    ),
    # Entry 4 is the mark that the table is there.
    "gpt": Format(
        10_838_310,
        8,
        2048,
        {"right": {"bound": 2, "first": 5}, "no_flush": {"bound": 2, "first": 5}, "headers_first": {"first": 5}},
    ),
    # Entry 5 is the mark that the header is there.
    "luks2": Format(
        638_703_857,
        178,
        2048,
        {
            "right": {"bound": 2, "by": "write", "first": 6},
            "no_flush": {"bound": 2, "cuts": "flush", "by": "write", "first": 6},
            "texts_first": {"by": "write", "first": 6},
        },
    ),
    "xfs": Format(
        558_719_980,
        1,
        32768,
        {
            "right": {"by": "write"},
            "no_flush": {"cuts": "flush", "by": "write"},
            "super_first": {"cuts": "flush", "by": "write"},
        },
    ),
    # Entry 27 is the mark that the file system is there.
    "btrfs": Format(
        596_184_851,
        115,
        32768,
        {
            "right": {"by": "write", "bound": 2, "first": 28},
            "no_flush": {"by": "write", "first": 28},
            "reused": {"by": "write", "first": 28},
        },
    ),
}


def code_of(name):
    return (FOLDER / f"{name}.bpf").read_bytes()


def base_of(name):
    """What the device held before entry 0."""
    path = FOLDER / name / "base.img"
    return path.read_bytes() if path.exists() else b""


def log_of(name, which):
    return trace_log.made((FOLDER / name / f"{which}.trace").read_text(), FOLDER / name)


def run_of(name, which):
    """The run whose report is stored."""
    it = FORMATS[name]
    return Run(entries_of(log_of(name, which)), it.sectors, base=base_of(name), **it.runs[which])


def about(name):
    """What a report says of the checker."""
    it = FORMATS[name]
    return f"slots {len(code_of(name)) // 8} budget {it.budget} guards {it.guards}"


def ended(code, image):
    """What the checker answers on an image, and its codes, by the machine's model."""
    words = machine_model.judged(code, image, None, True).text.split()
    return int(words[1]), [] if words[3] == "-" else words[3].split(",")


def report_of(name, which):
    """The report of a log, by the models."""
    code = code_of(name)
    return explored(run_of(name, which), [Checker(about(name), lambda image: ended(code, image))])


def verified(name):
    """A row of `verify`, whose budget has to be that of the rule."""
    it, code = FORMATS[name], code_of(name)
    rule = by_rule(code)
    answer = f"accepted budget {it.budget} guards {it.guards}\n" if rule == it.budget else f"the rule says {rule}\n"
    return Row(f"verify checkers/{name}", f"verify p --sectors {it.sectors} {it.options()}", {"p": code}, answer)


def reported(name, which):
    """A row of `explore`."""
    run, more = run_of(name, which), FORMATS[name].options()
    wanted = Long(lambda: (FOLDER / name / f"{which}.report").read_bytes())
    row = explore(f"checkers/{name}, {which}", f"{run.options()} {more}", log_of(name, which), code_of(name), wanted, int(which != "right"))
    return replace(row, files={**row.files, **({"base": run.base} if run.base else {})})


def texts():
    """The names of the reports, and their texts."""
    return ((f"checkers/{name}/{which}.report", report_of(name, which)) for name, it in FORMATS.items() for which in it.runs)


# What is changed in the last image of the right log, and what is answered then

PAGE = 4096
FREE, MAIN = PAGE + 40, PAGE + 88  # the records of the meta page of transaction 3
ROOT, LEAF, FREE_LIST = 7 * PAGE, 8 * PAGE, 10 * PAGE
NODE = LEAF + 2880  # of key-001, with 1,200 bytes

LMDB = [
    ({}, 0, "-"),
    ({PAGE + 10: u16(0)}, 1, "-"),
    ({16: u32(0xBEEFC0DF)}, 1, "-"),
    ({20: u32(999)}, 2, "-"),
    ({40: u32(4095)}, 2, "-"),
    ({PAGE + 136: u64(262144)}, 3, "-"),
    ({PAGE + 136: u64(9)}, 4, "10"),
    ({MAIN + 40: u64(11)}, 4, "11"),
    ({MAIN + 40: u64(10)}, 5, "10"),
    ({ROOT: u64(6)}, 6, "7"),
    ({LEAF + 10: u16(1)}, 7, "8"),
    ({MAIN + 6: u16(1)}, 7, "7"),
    ({LEAF + 12: u16(21)}, 8, "8"),
    ({LEAF + 14: u16(4097)}, 8, "8"),
    ({LEAF + 16: u16(440)}, 9, "8"),
    ({LEAF + 16: u16(4090)}, 9, "8"),
    ({LEAF + 14: u16(446)}, 10, "8"),
    ({NODE: u16(1202)}, 9, "8"),
    ({NODE: u16(1198)}, 10, "8"),
    ({NODE + 8 + 6: b"9"}, 11, "8"),
    ({ROOT + 4056 + 8 + 6: b"0"}, 0, "-"),
    ({ROOT + 4056 + 8 + 5: b"0"}, 11, "7"),
    ({NODE + 4: u16(1), NODE + 15: u64(9)}, 12, "9,8"),
    ({NODE + 4: u16(4)}, 13, "8"),
    ({NODE + 4: u16(2)}, 9, "8"),
    ({MAIN + 32: u64(4)}, 14, "7"),
    ({MAIN + 16: u64(2)}, 14, "7"),
    ({FREE_LIST + 4016 + 16: u64(4)}, 15, "10"),
    ({FREE_LIST + 4016 + 8: u64(4)}, 15, "10"),
    ({FREE_LIST + 4016 + 24: u64(7)}, 5, "7"),
    ({FREE_LIST + 4016 + 16: u64(2)}, 16, "8"),
    ({PAGE + 144: u64(1)}, 17, "-"),
]


def big(*numbers):
    """Big-endian numbers of 32 bits."""
    return struct.pack(f">{len(numbers)}I", *numbers)


PAGE_1, PAGE_2, PAGE_3, PAGE_4, PAGE_5, PAGE_6 = (512 * it for it in range(6))
JOURNAL = 4096
MAGIC = bytes.fromhex("d9d505f920a163d7")

ROLLBACK_JOURNAL = [
    ({}, 0, "-"),
    ({0: b"s"}, 1, "-"),
    ({21: b"\x41"}, 1, "-"),
    ({16: b"\x02\x01"}, 1, "-"),
    ({18: b"\x02\x02"}, 2, "-"),
    ({JOURNAL: MAGIC, JOURNAL + 3104: MAGIC}, 2, "-"),
    ({JOURNAL: MAGIC + big(0, 0, 4096, 512, 512)}, 3, "-"),
    ({28: big(7)}, 4, "-"),
    ({PAGE_2 + 507: big(9)}, 4, "9"),
    ({PAGE_2 + 507: big(1)}, 5, "1"),
    ({PAGE_4: b"\x0a"}, 6, "4"),
    ({PAGE_4: b"\x0b"}, 6, "4"),
    ({PAGE_4 + 5: b"\x02\x58"}, 8, "4"),
    ({PAGE_4 + 8: b"\x01\xfe"}, 9, "4"),
    ({PAGE_4 + 8: b"\x01\x6a"}, 10, "4"),
    ({PAGE_4 + 7: b"\x01"}, 10, "4"),
    ({PAGE_4 + 1: b"\x00\x64"}, 11, "4"),
    ({PAGE_4 + 438: b"\x09"}, 12, "4"),
    ({PAGE_5 + 64: b"\x87\x68"}, 13, "2021161080,5"),
    ({PAGE_1 + 441: b"\x0a"}, 14, "1"),
    ({32: big(6, 1)}, 15, "6"),
    ({36: big(1)}, 15, "-"),
    ({PAGE_2 + 3: b"\x00\x01\x01\xfb", PAGE_6: b"\x05\x00\x00\x00\x00\x02\x00\x00" + big(5)}, 7, "5"),
    ({PAGE_2 + 3: b"\x00\x01\x01\xfb", PAGE_2 + 8: big(5)}, 16, "5"),
    ({PAGE_3 + 3: b"\x00\x0b\x01\x7d"}, 17, "3"),
    ({24: big(6), 92: big(6)}, 18, "-"),
    # a journal that isn't hot, or isn't one
    ({JOURNAL + 1: MAGIC[1:]}, 0, "-"),
    ({JOURNAL: b"\x01" + MAGIC[1:]}, 0, "-"),
    # one that is hot, and has nothing: the database is as long as it says
    ({JOURNAL: MAGIC + big(0, 0, 6, 512, 512)}, 0, "-"),
    ({JOURNAL: MAGIC + big(0, 0, 5, 512, 512)}, 4, "-"),
]

CHANGED = {"lmdb": LMDB, "rollback_journal": ROLLBACK_JOURNAL}


def last_image(name):
    """What the device holds when all of the right log has arrived."""
    run = run_of(name, "right")
    content = bytearray(run.base.ljust(SECTOR * run.sectors, b"\0"))
    for it in run.entries:
        content[SECTOR * it.sector : SECTOR * it.sector + len(it.data)] = it.data
    return content


def changed(name):
    """A row for each change, on a device that was written before all marks, of which there are as many as commits."""
    it, content, code = FORMATS[name], last_image(name), code_of(name)
    right = run_of(name, "right")
    marks = [M("commit")] * right.marks(len(right.entries))
    for number, (pieces, answer, codes) in enumerate(CHANGED[name]):
        device = bytearray(content)
        for place, piece in pieces.items():
            device[place : place + len(piece)] = piece
        written = [S(0, bytes(device))] if it.sectors <= USUAL else [S(at, bytes(device[SECTOR * at : SECTOR * (at + 1)])) for at in filled_sectors(device)]
        run = Run([*written, *marks], it.sectors, cuts="mark", bound=0, first=len(written) + len(marks))
        wanted = explored(run, [Checker(about(name), lambda image, found=(answer, codes.split(",")): found)])
        yield explore(f"checkers/{name}, change {number}", f"{run.options()} {it.options()}", run.recorded, code, wanted, int(answer != 0))


def with_sums(first, entries):
    """Changes of both copies of a partition table: of bytes of the headers, by place, and of entries, by number: the first and the last
    sector of a partition. All sums are right."""
    content = last_image("gpt")
    for header, table in GPT_COPIES:
        for number, places in entries.items():
            content[table + 128 * number : table + 128 * number + 48] = b"\1" * 32 + struct.pack("<2Q", *places)
        for place, piece in first.items():
            content[header + place : header + place + len(piece)] = piece
        content[header + 88 : header + 92] = u32(zlib.crc32(content[table : table + TABLE]))
        content[header + 16 : header + 20] = bytes(4)
        content[header + 16 : header + 20] = u32(zlib.crc32(content[header : header + 92]))
    return {at: bytes(content[at : at + size]) for it in GPT_COPIES for at, size in zip(it, (SECTOR, TABLE))}


# Sector 1 with its table from sector 2 on, and sector 2,047 with one from 2,015 on.
GPT_COPIES, TABLE = ((SECTOR, 2 * SECTOR), (2047 * SECTOR, 2015 * SECTOR)), 128 * 128
(FIRST, FIRST_TABLE), (SECOND, SECOND_TABLE) = GPT_COPIES

# Of each with an answer sgdisk -v says that no copy is whole, or what is wrong with its partitions or its sectors for them; but not that
# the last of these is that of the second header. Of each with 0 it says that a copy is whole.
CHANGED["gpt"] = [
    ({}, 0, "-"),
    ({FIRST: b"e", SECOND + 100: b"e"}, 0, "-"),
    ({FIRST: b"e", SECOND + 56: b"e"}, 1, "-"),
    ({FIRST: b"e", SECOND_TABLE + TABLE - 1: b"e"}, 1, "-"),
    ({FIRST_TABLE + 200: b"e"}, 0, "-"),
    (with_sums({}, {1: (33, 1535)}), 4, "2"),
    (with_sums({}, {1: (1024, 1023)}), 4, "2"),
    (with_sums({}, {0: (64, 1024)}), 5, "2"),
    (with_sums({40: u64(33)}, {}), 3, "-"),
    (with_sums({48: u64(2047)}, {}), 3, "-"),
    (with_sums({8: u32(0x10001)}, {}), 2, "-"),
]


# The copies of a header, each with a text from byte 4,096 of it on.
LUKS2_COPIES, LUKS2_COPY, LUKS2_TEXT = (0, 16384), 16384, 4096


def with_text(*pairs, copies=LUKS2_COPIES):
    """Changes of the texts of a header's copies: in each pair the first is replaced by the second. The sums are right."""
    content = last_image("luks2")
    for copy in copies:
        own = memoryview(content)[copy : copy + LUKS2_COPY]
        text = bytes(own[LUKS2_TEXT:]).rstrip(b"\0")
        for old, new in pairs:
            text = text.replace(old, new, 1)
        own[LUKS2_TEXT:] = text.ljust(LUKS2_COPY - LUKS2_TEXT, b"\0")
        own[448:512] = bytes(64)
        own[448:480] = hashlib.sha256(own).digest()
    return {it: bytes(content[it : it + LUKS2_COPY]) for it in copies}


def place_of(piece):
    """Where that stands in the first copy's text, as a code."""
    return str(last_image("luks2").index(piece, LUKS2_TEXT))


OTHER_SUM = {448: b"e", LUKS2_COPY + 448: b"e"}
STRIPES = (b'"stripes":4000', b'"stripes":"4000"')
FAR = (b'"offset":"1048576"', b'"offset":"104857600"')

# cryptsetup luksDump fails on each with an answer, and on no other.
CHANGED["luks2"] = [
    ({}, 0, "-"),
    ({448: OTHER_SUM[448]}, 0, "-"),
    (OTHER_SUM, 1, "-"),
    ({0: b"l"}, 0, "-"),
    ({6: b"\0\3"}, 2, "-"),
    ({LUKS2_COPY + 6: b"\0\3"}, 0, "-"),
    (with_text((b'"config"', b'"config')), 3, "-"),
    (with_text((b"}}", b"}},")), 3, "-"),
    (with_text((b'"tokens"', b'"token"')), 4, "4096"),
    (with_text((b'"tokens"', b'"token"'), copies=LUKS2_COPIES[:1]), 0, "-"),
    (with_text((b'"tokens"', b'"\\u0074okens"')), 0, "-"),
    (with_text(STRIPES), 4, place_of(b'{"type":"luks1"')),
    (with_text((b'"json_size"', b'"json_size":"5","json_size"')), 0, "-"),
    (with_text((b'"segments":["0"]', b'"segments":[]')), 4, place_of(b'{"type":"crypt"')),
    (with_text((b'"offset":"32768"', b'"offset":"28672"')), 5, place_of(b'{"type":"raw"')),
    (with_text((b'"size":"65536"', b'"size":"65537"')), 5, place_of(b'{"0":{"type":"luks2"')),
    (with_text((b'"keyslots_size":"393216"', b'"keyslots_size":"1048576"')), 5, place_of(b'{"0":{"type":"crypt"')),
    (with_text(FAR, (b'"keyslots_size":"393216"', b'"keyslots_size":"1015808"')), 0, "-"),
    (with_text(FAR, (b'"keyslots_size":"393216"', b'"keyslots_size":"1019904"')), 6, "-"),
]


def summed(pieces):
    """Changes of a btrfs, by place; the blocks in which they lie have their CRC-32C."""
    content = last_image("btrfs")
    for place, piece in pieces.items():
        content[place : place + len(piece)] = piece
    blocks = sorted({place // NODE_BYTES * NODE_BYTES for place in pieces})
    for it in blocks:
        content[it : it + 4] = u32(~machine_model.summed(0x82F63B78, 2**32 - 1, content[it + 32 : it + NODE_BYTES]) % 2**32)
    return {it: bytes(content[it : it + NODE_BYTES]) for it in blocks}


# The super block, and the leaves of the trees as the last commit left them; where their items and the data of these begin.
NODE_BYTES, SUPER, ITEM_LIST, ITEM_BYTES = 4096, 65536, 101, 25
CHUNK_LEAF, FILE_LEAF, ROOT_LEAF, DEVICE_LEAF, EXTENT_LEAF, CSUM_LEAF = 1052672, 5246976, 5251072, 5259264, 5263360, 5279744

# Of each with an answer `btrfs check` has another status than 0, but of those with CHUNK_LEAF and DEVICE_LEAF, of which it says that they
# don't fit the chunks.
CHANGED["btrfs"] = [
    ({}, 0, "-"),
    (summed({SUPER + 299: b"two"}), 0, "-"),
    ({SUPER + 64: b"x"}, 1, "-"),
    ({SUPER + 4000: b"x"}, 1, "-"),
    (summed({SUPER + 136: u64(2)}), 2, "-"),
    (summed({SUPER + 148: u32(512)}), 3, "-"),
    (summed({SUPER + 112: u64(16777216 - 4096)}), 3, "-"),
    (summed({CHUNK_LEAF + ITEM_LIST + 3657 + 40: u32(512)}), 4, f"{CHUNK_LEAF}"),
    (summed({SUPER + 80: u64(12582912)}), 5, "12582912"),
    ({FILE_LEAF + 300: b"x"}, 6, f"{FILE_LEAF}"),
    (summed({FILE_LEAF + 80: u64(4)}), 7, f"{FILE_LEAF}"),
    (summed({CSUM_LEAF + 88: u64(8)}), 7, f"{CSUM_LEAF}"),
    (summed({FILE_LEAF + ITEM_LIST + ITEM_BYTES + 17: u32(3822)}), 8, f"{FILE_LEAF}"),
    (summed({FILE_LEAF + ITEM_LIST: u64(257)}), 9, f"{FILE_LEAF}"),
    (summed({ROOT_LEAF + ITEM_LIST + 7 * ITEM_BYTES: u64(6)}), 10, "-"),
    (summed({EXTENT_LEAF + ITEM_LIST + 3881: u64(2)}), 11, f"{EXTENT_LEAF}"),
    (summed({EXTENT_LEAF + ITEM_LIST + 3914: u64(0)}), 12, "5242880"),
    (summed({SUPER + 120: u64(0)}), 12, "-"),
    (summed({DEVICE_LEAF + ITEM_LIST + 3899 + 24: u64(4096)}), 13, f"{DEVICE_LEAF}"),
]


def zeros(marks):
    """A row of a device of zeros, which is good before the first mark alone."""
    run = Run([M("commit")] * marks, FORMATS["lmdb"].sectors, bound=0, first=marks)
    wanted = explored(run, [Checker(about("lmdb"), lambda image: (int(marks > 0), []))])
    return explore(f"checkers/lmdb, zeros, {marks} marks", f"{run.options()} --guards", run.recorded, code_of("lmdb"), wanted, int(marks > 0))


ROWS = [
    *(verified(name) for name in FORMATS),
    *(reported(name, which) for name, it in FORMATS.items() for which in it.runs),
    *(row for name in CHANGED for row in changed(name)),
    *(zeros(marks) for marks in (0, 1)),
]
