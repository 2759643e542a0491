"""Logs that commands/record/trace_log.py makes of traces, and the ext4 that was recorded: examples/recording/mkfs.trace, the same with
its mark too early, and the checker of its super block.

What the tool makes of a trace byte by byte is tested by tests/gate/trace_log.py, which needs no program.
"""
import struct

from model import Checker, Run, explored
from notation import SECTOR, TOP, D, F, Long, M, Row, S, W, entries_of, log, named, report
from rows.checkers import accepted, crc32c, judged, u16, u32
from rows.worked import torn

from commands.record import trace_log

FOLDER = TOP / "examples/recording"
LARGEST = 16384


def made(name):
    """The log of a trace of examples/recording."""
    return trace_log.made((FOLDER / name).read_text(), FOLDER)


MKFS = made("mkfs.trace")
ENTRIES = entries_of(MKFS)
EARLY = [*ENTRIES[:96], M("formatted"), ENTRIES[96]]

# A trace, its log and its table

COMMIT = """\
# two writes, a flush and a mark
write 2 1 fill 0x11
write 0 1 fill 1 fua
discard 1 3
flush
mark commit-1
"""

COMMIT_TABLE = """\
entry 0 epoch 0 write sector 2 count 1
entry 1 epoch 0 write fua sector 0 count 1
entry 2 epoch 0 discard sector 1 count 3
entry 3 epoch 0 flush
entry 4 epoch 1 mark text "commit-1"
"""

TRACES = [
    Row("the table of a trace", "log log --sectors 4", {"log": trace_log.made(COMMIT)}, COMMIT_TABLE),
    Row("the trace of mkfs, its last entries", "images log --sectors 16384 --cuts mark", {"log": MKFS}, "cut 98 epoch 2 marks 1 volatile 0 images 1\ntotal 1\n"),
]


# A write with O_DSYNC, once and twice: docs/CRASH-MODEL.md, forced_in_flight

FORCED = "write 0 1 fill 0xaa fua\n"
TWICE = "write 0 1 fill 0xaa\n" + FORCED


def forced(name, trace, entries, failing, total):
    """What becomes of a write in flight, by a checker that fails where it is torn. The images at cut 1 are those of torn_sector."""
    head = f"""
        sectors 4 entries {entries} cuts all bound 1 tears yes first no
        program 0 slots 11 budget 9
        """
    out = report(head) + torn(failing) + f"images {total} failing {len(failing)} lines {len(failing)}\n"
    return Row(name, "explore log p0 --sectors 4 --tears", {"log": trace_log.made(trace), "p0": named("ends_agree")}, out, int(bool(failing)))


IN_FLIGHT = [
    forced("O_DSYNC as FUA alone is never torn", FORCED, 1, [], 2),
    forced("O_DSYNC as a write and its FUA copy is torn in flight", TWICE, 2, range(3, 17), 33),
]


# What stood on a device before, in front of a log

BEFORE = b"".join(bytes([number]) * SECTOR for number in range(1, 5))
WITH_BASE = log([S(0, BEFORE), F, W(1, 1, 0xAA), D(2, 1)])


def based(choice, content):
    return Row(f"a device that wasn't zeros, {choice}", f"image log --cut 4 --choice {choice} --sectors 4 --from 2", {"log": WITH_BASE}, content)


BASES = [
    based("-", BEFORE[:512] + b"\xaa" * 512 + bytes(512) + BEFORE[1536:]),
    based("2.0:drop", BEFORE[:1024] + bytes(512) + BEFORE[1536:]),
    based("3.0:drop", BEFORE[:512] + b"\xaa" * 512 + BEFORE[1024:]),
]


# The checker

BUDGET = 669_291


def ext4_pieces(block=1024, table=5, **changes):
    """The super block, the descriptor and the root inode of an ext4, with its sums; a change is bytes of super block or
    descriptor that are put in after the sums."""
    name = bytes(range(16))
    superblock = bytearray(1020)
    for at, field in [(24, u32(0)), (56, u16(0xEF53)), (88, u16(256)), (104, name), (254, u16(64))]:
        superblock[at : at + len(field)] = field
    group = u32(3, 4, table) + bytes(18) + u16(0) + bytes(32)
    crc = ~crc32c(name + u32(0) + group) & 0xFFFF
    pieces = {1024: bytes(superblock) + u32(~crc32c(bytes(superblock)) & 0xFFFFFFFF), 2048: group, 2048 + 30: u16(crc)}
    return pieces | {block * table + 256: u16(0x41ED)}


GOOD = ext4_pieces()

# The answer, the codes, and the bytes of the device.
DEVICES = [
    (0, "-", GOOD),
    (1, "-", {}),
    (1, "-", GOOD | {1024 + 56: u16(0xEF52)}),
    (2, "-", GOOD | {1024 + 24: u32(2)}),
    (2, "-", GOOD | {1024 + 254: u16(32)}),
    (3, "-", GOOD | {1024 + 1019: b"\x01"}),
    (3, "-", GOOD | {1024 + 1020: u32(0)}),
    (4, "-", GOOD | {2048 + 63: b"\x01"}),
    (4, "-", GOOD | {2048 + 30: u16(0)}),
    (5, "5120", GOOD | {5120 + 256: u16(0x81ED)}),
    (5, str(1024 * 0xFFFFFFFF), ext4_pieces(table=0xFFFFFFFF, block=0)),
]

CHECKED = [accepted("verify recording/ext4", FOLDER / "ext4.bpf", BUDGET)] + [
    judged("recording/ext4", BUDGET, number, pieces, answer, codes) for number, (answer, codes, pieces) in enumerate(DEVICES)
]


def ext4(image):
    """What the checker answers on an image."""
    block = image.sector(2) + image.sector(3)
    group = image.sector(4)[:64]
    word = lambda at: struct.unpack_from("<I", block, at)[0]
    half = lambda at: struct.unpack_from("<H", block, at)[0]
    if not image.marks():
        return 0, []
    if half(56) != 0xEF53:
        return 1, []
    if word(24) or half(254) != 64:
        return 2, []
    if ~crc32c(block[:1020]) & 0xFFFFFFFF != word(1020):
        return 3, []
    sum_of_group = ~crc32c(block[104:120] + bytes(4) + group[:30] + bytes(2) + group[32:]) & 0xFFFF
    if sum_of_group != struct.unpack_from("<H", group, 30)[0]:
        return 4, []
    root = 1024 * struct.unpack_from("<I", group, 8)[0] + half(88)
    mode = struct.unpack_from("<H", image.sector(root // SECTOR), root % SECTOR)[0]
    return (0, []) if mode >> 12 == 4 else (5, [1024 * struct.unpack_from("<I", group, 8)[0]])


CODE = (FOLDER / "ext4.bpf").read_bytes()


def recorded(name, entries, status, **options):
    """A report of the recorded log."""
    run = Run(entries, LARGEST, **options)
    wanted = Long(lambda: explored(run, [Checker(f"slots {len(CODE) // 8} budget {BUDGET}", ext4)]))
    return Row(f"ext4, {name}", f"explore log p0 {run.options()}", {"log": log(entries), "p0": CODE}, wanted, status, seconds=60)


REPORTS = [
    recorded("marked after its last flush", ENTRIES, 0, cuts="mark", by="write"),
    recorded("marked too early", EARLY, 1, cuts="mark", by="write"),
    recorded("marked too early, torn sectors", EARLY, 1, cuts="mark", tears=True),
    recorded("each cut, nothing lost", ENTRIES, 0, bound=0),
]

ROWS = [*TRACES, *IN_FLIGHT, *BASES, *CHECKED, *REPORTS]
