"""Logs that lie: cut ones, each cause of a refusal with its place, and what is accepted next to it."""
from notation import (
    DISCARD,
    FLUSH,
    FUA,
    MARK,
    METADATA,
    SECTOR,
    D,
    Entry,
    F,
    Long,
    M,
    Row,
    S,
    W,
    files,
    header,
    lines,
    log,
    program,
    refused,
    super_block,
    unexplored,
)

GOOD = program("mov64 r0, 0; exit")
MOST = 2**64 - 1


def refused_log(name, entries, error, sectors=4):
    """A log that is refused, by `images` and by `explore`."""
    return [
        refused(f"log: {name}", f"images log --sectors {sectors}", files(entries), error),
        unexplored(f"log: {name}, explored", f"--sectors {sectors}", entries, GOOD, error),
    ]


def accepted_log(name, entries, survey, sectors=4):
    return [Row(f"log: {name}", f"images log --sectors {sectors}", files(entries), survey)]


def survey(*cuts):
    """What `images` prints of cuts with these epochs, marks and volatile units, with the bound 1."""
    text = ""
    for number, (epoch, marks, volatile) in enumerate(cuts):
        text += f"cut {number} epoch {epoch} marks {marks} volatile {volatile} images {volatile + 1}\n"
    return text + f"total {sum(volatile + 1 for _epoch, _marks, volatile in cuts)}\n"


NOTHING = (0, 0, 0)
ONE_EMPTY = survey(NOTHING, NOTHING)


# Cut logs

TWO_EPOCHS = [W(0, 1, 0xAA), F, W(0, 1, 0xBB)]
TWO_EPOCHS_SURVEY = survey(NOTHING, (0, 0, 1), (1, 0, 0), (1, 0, 1))

# length of what is there, and the refusal
TWO_EPOCHS_CUT = [
    (0, "1 at 0"),
    (511, "1 at 0"),
    (512, "5 at 0"),
    (1023, "5 at 0"),
    (1024, "5 at 0"),
    (1535, "5 at 0"),
    (1536, "5 at 1"),
    (2047, "5 at 1"),
    (2048, "5 at 2"),
    (2559, "5 at 2"),
    (2560, "5 at 2"),
    (3071, "5 at 2"),
]

# a forced write of two sectors, a discard, a mark, a flush that writes: six headers and data sectors after the super block
MIXED = [W(0, 2, 0x11, FUA), D(1, 3), M("seven letters"), W(3, 1, 0x22, FLUSH)]
MIXED_SURVEY = survey(NOTHING, NOTHING, (0, 0, 3), (0, 1, 3), (1, 1, 1))

MIXED_CUT = [
    (512, "5 at 0"),
    (1023, "5 at 0"),
    (1024, "5 at 0"),
    (1535, "5 at 0"),
    (1536, "5 at 0"),
    (2047, "5 at 0"),
    (2048, "5 at 1"),
    (2559, "5 at 1"),
    (2560, "5 at 2"),
    (3071, "5 at 2"),
    (3072, "5 at 3"),
    (3583, "5 at 3"),
    (3584, "5 at 3"),
    (4095, "5 at 3"),
]


def cut_logs(name, entries, cuts):
    return [
        row
        for length, error in cuts
        for row in refused_log(f"{name}, its first {length} bytes", log(entries)[:length], f"refused {error}")
    ]



def cut_refusal(entries, length):
    """Why the first bytes of that number are no log, of a log of entries that are in order by themselves: the super block
    isn't whole, or the header or the data of an entry isn't, and then of the first such entry."""
    if length < SECTOR:
        return "refused 1 at 0"
    end = SECTOR
    for number, entry in enumerate(entries):
        end += len(entry.encoded())
        if length < end:
            return f"refused 5 at {number}"
    raise ValueError("all of it is there")


def cut_at_each_byte(name, entries):
    """The log cut at each of its bytes."""
    whole = log(entries)
    return [
        refused(f"log: {name}, cut at byte {length}", "images log --sectors 4", files(whole[:length]), cut_refusal(entries, length))
        for length in range(len(whole))
    ]


CUT = [
    *cut_at_each_byte("two_epochs", TWO_EPOCHS),
    *cut_logs("two_epochs", TWO_EPOCHS, TWO_EPOCHS_CUT),
    *accepted_log("two_epochs, all 3,072 bytes", log(TWO_EPOCHS)[:3072], TWO_EPOCHS_SURVEY),
    *accepted_log("two_epochs, one byte more", log(TWO_EPOCHS) + b"x", TWO_EPOCHS_SURVEY),
    *accepted_log("two_epochs, a header more", log(TWO_EPOCHS) + header(9, 9, 99, 9), TWO_EPOCHS_SURVEY),
    *cut_logs("mixed", MIXED, MIXED_CUT),
    *accepted_log("mixed, all 4,096 bytes", log(MIXED)[:4096], MIXED_SURVEY),
    *refused_log("one write, its first 511 bytes", log([W(0, 1, 0xAA)])[:511], "refused 1 at 0"),
    *refused_log("one write, its first 1,535 bytes", log([W(0, 1, 0xAA)])[:1535], "refused 5 at 0"),
    *accepted_log("one write, all 1,536 bytes", log([W(0, 1, 0xAA)])[:1536], survey(NOTHING, (0, 0, 1))),
]


# The super block

ONE_FLUSH = F.encoded()


def changed(place, byte):
    """two_epochs with another byte at a place."""
    content = bytearray(log(TWO_EPOCHS))
    content[place] = byte
    return bytes(content)


SUPER = [
    *refused_log("magic, first byte", changed(0, 2), "refused 2 at 0"),
    *refused_log("magic, last byte", changed(7, 2), "refused 2 at 0"),
    *refused_log("version 2", changed(8, 2), "refused 3 at 0"),
    *refused_log("version 0", changed(8, 0), "refused 3 at 0"),
    *refused_log("version 2^57 + 1", changed(15, 2), "refused 3 at 0"),
    *refused_log("sector size 514", changed(24, 2), "refused 4 at 0"),
    *refused_log("sector size 0", changed(25, 0), "refused 4 at 0"),
    *refused_log("sector size 4,096", changed(25, 16), "refused 4 at 0"),
    *refused_log("sector size 2^25 + 512", changed(27, 2), "refused 4 at 0"),
    *refused_log("131,075 entries", changed(18, 2), "refused 10 at 0"),
    *refused_log("65,537 entries", super_block(65537), "refused 10 at 0"),
    *refused_log("2^32 entries", super_block(2**32), "refused 10 at 0"),
    *refused_log("2^64 - 1 entries", super_block(MOST), "refused 10 at 0"),
    *refused_log("65,536 entries of which none is there", super_block(65536), "refused 5 at 0"),
    *refused_log("one entry fewer than counted", super_block(2) + ONE_FLUSH, "refused 5 at 1"),
    *accepted_log("one entry more than counted", super_block(0) + ONE_FLUSH, survey(NOTHING)),
    *refused_log("magic before version", super_block(0, magic=b"JBD2\0\0\0\0", version=9), "refused 2 at 0"),
    *refused_log("version before sector size", super_block(0, version=2, sector_size=4096), "refused 3 at 0"),
    *refused_log("sector size before entries", super_block(MOST, sector_size=4096), "refused 4 at 0"),
    *refused_log("length before magic", bytes(511), "refused 1 at 0"),
    *refused_log("zeros", bytes(512), "refused 2 at 0"),
    *refused_log("magic as a number of the other order", super_block(0, magic=b"\0jsfwshr"), "refused 2 at 0"),
]


# Entries


def one(name, entry, error, sectors=4):
    return refused_log(name, [entry], f"refused {error}", sectors)


def fits(name, entry, answer=ONE_EMPTY, sectors=4):
    return accepted_log(name, [entry], answer, sectors)


FLAGS = [
    *one("flag 32", header(flags=32), "6 at 0"),
    *one("flag 64", header(flags=64), "6 at 0"),
    *one("flag 2^32", header(flags=2**32), "6 at 0"),
    *one("flag 2^63", header(flags=2**63), "6 at 0"),
    *one("all flags", header(flags=MOST), "6 at 0"),
    *one("a mark with flag 32", header(flags=MARK | 32), "6 at 0"),
    *fits("flush, FUA, discard and metadata", header(flags=FLUSH | FUA | DISCARD | METADATA), survey(NOTHING, (1, 0, 0))),
    *fits("metadata", header(flags=METADATA)),
    *fits("a mark with metadata", header(flags=MARK | METADATA), survey(NOTHING, (0, 1, 0))),
    *fits("a journal's commit", header(7, 0, FLUSH | FUA | METADATA), survey(NOTHING, (1, 0, 0))),
]

DATA_LENGTHS = [
    *one("a write with data_len 1", header(data_len=1), "7 at 0"),
    *one("a write with data_len 2^32", header(data_len=2**32), "7 at 0"),
    *one("a flush with data_len 512", header(flags=FLUSH, data_len=512), "7 at 0"),
    *one("a discard with data_len 1", header(0, 1, DISCARD, 1), "7 at 0"),
]

MARKS = [
    *one("a mark that flushes", header(flags=MARK | FLUSH), "8 at 0"),
    *one("a mark that is FUA", header(flags=MARK | FUA), "8 at 0"),
    *one("a mark that discards", header(flags=MARK | DISCARD), "8 at 0"),
    *one("a mark with a sector", header(0, 1, MARK), "8 at 0"),
    *one("a mark with 2^32 sectors", header(0, 2**32, MARK), "8 at 0"),
    *one("a mark of 481 bytes", header(flags=MARK, data_len=481), "8 at 0"),
    *one("a mark of 2^64 - 1 bytes", header(flags=MARK, data_len=MOST), "8 at 0"),
    *fits("a mark of 480 bytes", Entry(flags=MARK, text=b"x" * 480), survey(NOTHING, (0, 1, 0))),
    *fits("a mark without text", Entry(flags=MARK), survey(NOTHING, (0, 1, 0))),
    *fits("a mark at a sector past the device", Entry(MOST, 0, MARK, b"x"), survey(NOTHING, (0, 1, 0))),
    *fits("a mark that isn't UTF-8", Entry(flags=MARK, text=b"\xff\0\n"), survey(NOTHING, (0, 1, 0))),
]

PLACES = [
    *one("past the device by one", W(3, 2, 0), "9 at 0"),
    *one("from the end of the device on", W(4, 1, 0), "9 at 0"),
    *one("more sectors than the device has", W(0, 5, 0), "9 at 0"),
    *one("a discard past the device", D(3, 2), "9 at 0"),
    *one("2^64 - 1 sectors", header(1, MOST), "9 at 0"),
    *one("2^64 - 1 sectors from 0", header(0, MOST), "9 at 0"),
    *one("a sum of 2^64", header(MOST, 1), "9 at 0"),
    *one("a sum of 2^64 + 4", header(MOST, 5), "9 at 0"),
    *one("a sum of 2^64 in halves", header(2**63, 2**63), "9 at 0"),
    *one("a discard with a sum of 2^64 + 1", header(MOST, 2, DISCARD), "9 at 0"),
    *one("2^32 sectors", header(0, 2**32), "9 at 0"),
    *one("2^32 + 1 sectors from 2^32 on", header(2**32, 2**32 + 1), "9 at 0"),
    *one("the largest device and one more", D(0, 16385), "9 at 0", 16384),
    *fits("the last sector", W(3, 1, 0), survey(NOTHING, (0, 0, 1))),
    *fits("all sectors", W(0, 4, 0), survey(NOTHING, (0, 0, 4))),
    *fits("two sectors more", W(3, 2, 0), survey(NOTHING, (0, 0, 2)), 5),
    *fits("no sectors at 2^64 - 1", header(MOST)),
    *fits("a discard of no sectors at 2^64 - 1", header(MOST, 0, DISCARD)),
    *fits("no sectors at the end of the device", header(4)),
    *fits("the last sector of the largest device", D(16383, 1), survey(NOTHING, (0, 0, 1)), 16384),
]

# Each check of an entry comes before the next one, and an entry before the next.
ORDER = [
    *one("flags before data length", header(9, 9, 32, 9), "6 at 0"),
    *one("data length before place", header(9, 9, 0, 9), "7 at 0"),
    *one("form of a mark before place", header(9, 9, MARK, 0), "8 at 0"),
    *one("place before data", header(9, 9), "9 at 0"),
    *one("data last", header(0, 1), "5 at 0"),
    *refused_log("the first entry before the second", [header(9, 9), header(flags=32)], "refused 9 at 0"),
    *refused_log("data of the first before the second", super_block(2) + header(0, 1), "refused 5 at 0"),
    *refused_log("the second entry", [F, header(flags=32)], "refused 6 at 1"),
    *refused_log("the third entry", [W(0, 1, 0xFF), M("x"), header(0, 5)], "refused 9 at 2"),
    *refused_log("the last of eleven", [F] * 10 + [header(data_len=1)], "refused 7 at 10"),
]

UNITS = [
    *accepted_log(
        "16 discards of the largest device",
        [D(0, 16384)] * 16,
        survey(*((0, 0, 16384 * cut) for cut in range(17))),
        16384,
    ),
    *refused_log("17 discards of the largest device", [D(0, 16384)] * 17, "refused 10 at 16", 16384),
    *refused_log("place before units", [D(0, 16384)] * 16 + [D(16384, 1)], "refused 9 at 16", 16384),
    *refused_log("one unit too many", [D(0, 16384)] * 16 + [D(0, 1)], "refused 10 at 16", 16384),
    *refused_log("units before data", [D(0, 16384)] * 16 + [header(0, 1)], "refused 10 at 16", 16384),
]

# What no field uses isn't looked at.
USED = [W(0, 1, 0xAA), M("abc"), D(2, 2)]
UNUSED_BYTES = (
    super_block(3, unused=b"\xff")
    + header(0, 1, 0, 0, unused=b"\xff")
    + b"\xaa" * SECTOR
    + header(flags=MARK, data_len=3, text=b"abc", unused=b"\xff")
    + header(2, 2, DISCARD, unused=b"\xff")
    + b"\xff" * 100
)
USED_SURVEY = survey(NOTHING, (0, 0, 1), (0, 1, 1), (0, 1, 3))

UNUSED = [
    *accepted_log("unused bytes are zero", USED, USED_SURVEY),
    *accepted_log("unused bytes are 0xff", UNUSED_BYTES, USED_SURVEY),
    Row(
        "log: unused bytes aren't content",
        "image log 3 --sectors 4 --bound 0",
        files(UNUSED_BYTES),
        b"\xaa" * SECTOR + bytes(3 * SECTOR),
    ),
    Row(
        "log: data looks like a header",
        "images log --sectors 4",
        files([S(0, header(9, 9, 99, 9)), F]),
        survey(NOTHING, (0, 0, 1), (1, 0, 0)),
    ),
]

# The limit of the length, on a text of zeros and on a log with a tail.
TOO_LONG = 64 * 2**20 + 1

LENGTHS = [
    *refused_log("64 MiB of zeros and a byte", Long(lambda: bytes(TOO_LONG)), "refused 10 at 0"),
    *refused_log("64 MiB of zeros", Long(lambda: bytes(TOO_LONG - 1)), "refused 2 at 0"),
    *refused_log("64 MiB and a byte", Long(lambda: log([F]).ljust(TOO_LONG, b"\0")), "refused 10 at 0"),
    *accepted_log("64 MiB", Long(lambda: log([F]).ljust(TOO_LONG - 1, b"\0")), survey(NOTHING, (1, 0, 0))),
]

# A refusal for too many images names the cut itself, and not its place among the wanted cuts.
TOO_MANY = "--sectors 64 --bound 3 --tears"
ALL = W(0, 64, 1)


def too_many(name, cuts, entries, cut):
    return refused(f"count: {name}", f"images log {TOO_MANY} --cuts {cuts}", files(entries), f"refused 12 at {cut}")


COUNTS = [
    too_many("the cut of the flush", "flush", [F, M("x"), ALL, F], 3),
    too_many("the cut of the mark", "mark", [ALL, F, ALL, M("x"), F], 4),
    too_many("the sum over cuts", "all", [W(0, 30, 1)] + [M("x")] * 9, 2),
    Row(
        "count: no such cut is wanted",
        f"images log {TOO_MANY} --cuts mark",
        files([W(0, 64, 1), F, M("x")]),
        lines("""
            cut 3 epoch 1 marks 1 volatile 0 images 1
            total 1
            """),
    ),
]

ROWS = [
    *CUT,
    *SUPER,
    *FLAGS,
    *DATA_LENGTHS,
    *MARKS,
    *PLACES,
    *ORDER,
    *UNITS,
    *UNUSED,
    *LENGTHS,
    *COUNTS,
]
