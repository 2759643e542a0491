"""Raw logs, with sectors of 512 and of 4,096 bytes, and what is imported of them: each cause of a refusal, and what stands next to it.

The model is the format as docs/LOG-FORMAT.md has it, packed here for any size of sectors: the imported log is the same list of
entries, packed for 512 bytes, with numbers of sectors multiplied.
"""
import random
import struct

from notation import DISCARD, FLUSH, FUA, MAGIC, MARK, METADATA, SECTOR, Hole, Long, Row, refused

LARGE = 4096
MIB = 1 << 20


def raw_header(size, sector, count, flags, text=b"", data_len=None, unused=b"\0"):
    fields = struct.pack("<4Q", sector, count, flags, len(text) if data_len is None else data_len)
    return (fields + text).ljust(size, unused)


def raw(size, entries, count=None, magic=MAGIC, version=1, told=None):
    """A raw log of entries (sector, count, flags, content), of which the content of a mark is its text."""
    head = struct.pack("<8sQQI", magic, version, len(entries) if count is None else count, size if told is None else told)
    text = head.ljust(size, b"\xee" if size == LARGE else b"\0")
    for entry in entries:
        if isinstance(entry, bytes):
            text += entry
            continue
        sector, count, flags, content = entry
        if flags & MARK:
            text += raw_header(size, sector, count, flags, content)
        else:
            text += raw_header(size, sector, count, flags) + content
    return text


def small(entries):
    """The canonical text of the log of the entries of a raw log with sectors of 4,096 bytes."""
    return raw(SECTOR, [(8 * sector, 8 * count, flags, content) for sector, count, flags, content in entries])


def content(count, start=0):
    return bytes((start + place // 7) % 251 for place in range(count * LARGE))


ALL = [
    (0, 2, 0, content(2)),
    (5, 0, FLUSH, b""),
    (7, 1, FUA | METADATA, content(1, 9)),
    (3, 4, DISCARD, b""),
    (0, 0, MARK, b"committed \xff"),
    (2047, 1, FLUSH | FUA, content(1, 77)),
    (11, 0, MARK | METADATA, b"t" * 480),
    (2**61 - 1, 0, FLUSH, b""),
]


def imported(name, text, log):
    return Row(f"import: {name}", "import raw", {"raw": text}, log)


IMPORTED = [
    imported("no entries", raw(LARGE, []), raw(SECTOR, [])),
    imported("each kind of entry", raw(LARGE, ALL), small(ALL)),
    imported("what stands after the entries is ignored", raw(LARGE, ALL) + b"\xab" * 9999, small(ALL)),
    imported("an entry that isn't counted", raw(LARGE, ALL, count=3), small(ALL[:3])),
    imported("a log of the profile", raw(SECTOR, [(1, 1, 0, b"\x11" * 512), (0, 0, FLUSH, b"")]), raw(SECTOR, [(1, 1, 0, b"\x11" * 512), (0, 0, FLUSH, b"")])),
    imported("unused bytes become zeros", raw(LARGE, [raw_header(LARGE, 1, 0, FLUSH, unused=b"\x77")]), small([(1, 0, FLUSH, b"")])),
    imported("a log device with other bytes after the log", raw(LARGE, ALL) + b"\x72" * (3 * MIB), small(ALL)),
]

REFUSED = [
    ("an empty file", b"", "1 at 0"),
    ("511 bytes", raw(LARGE, [])[:511], "1 at 0"),
    ("4,095 bytes", raw(LARGE, [])[:4095], "1 at 0"),
    ("magic", raw(LARGE, [], magic=b"rhswfsk\0"), "2 at 0"),
    ("version", raw(LARGE, [], version=2), "3 at 0"),
    ("sectors of 1,024 bytes", raw(LARGE, [], told=1024), "4 at 0"),
    ("sectors of 0 bytes", raw(LARGE, [], told=0), "4 at 0"),
    ("too many entries", raw(LARGE, [], count=65537), "10 at 0"),
    ("no header", raw(LARGE, [], count=1), "5 at 0"),
    ("a cut header", raw(LARGE, [(0, 0, FLUSH, b"")])[:-1], "5 at 0"),
    ("cut data", raw(LARGE, ALL[:3])[:-1], "5 at 2"),
    ("data of a sector of 512 bytes alone", raw(LARGE, [(0, 1, 0, b"\1" * 512)]), "5 at 0"),
    ("an unknown flag", raw(LARGE, [(0, 0, 32, b"")]), "6 at 0"),
    ("a length that is no mark's", raw(LARGE, [raw_header(LARGE, 0, 0, FLUSH, data_len=1)]), "7 at 0"),
    ("a mark that is a flush", raw(LARGE, [(0, 0, MARK | FLUSH, b"")]), "8 at 0"),
    ("a mark with 481 bytes", raw(LARGE, [(0, 0, MARK, b"m" * 481)]), "8 at 0"),
    ("a mark with sectors", raw(LARGE, [(0, 1, MARK, b"")]), "8 at 0"),
    ("a write after the device", raw(LARGE, [(2048, 1, 0, content(1))]), "9 at 0"),
    ("a write over the end of the device", raw(LARGE, [(2047, 2, 0, content(2))]), "9 at 0"),
    ("a sum that would wrap", raw(LARGE, [(2**61 - 1, 1, 0, content(1))]), "9 at 0"),
    ("a count that would wrap", raw(LARGE, [(0, 2**61, DISCARD, b"")]), "9 at 0"),
    ("a sector that no log has", raw(LARGE, [(2**61, 0, FLUSH, b"")]), "9 at 0"),
    ("units", raw(LARGE, [(0, 2048, DISCARD, b"")] * 17), "10 at 16"),
]

# A whole log device as a pipe, in 200 MB.
PIPED = [
    Row("import: a pipe", "import pipe", {"whole": raw(LARGE, ALL)}, small(ALL), to="piped"),
    Row("import: a pipe with other bytes after the log", "import pipe", {"whole": raw(LARGE, ALL) + bytes(MIB)}, small(ALL), to="piped"),
    Row("import: a pipe that ends early", "import pipe", {"whole": raw(LARGE, ALL)[:-1]}, status=2, error="refused 5 at 7", to="piped"),
]

# At 192 MiB: a raw log of empty writes, whose headers are zeros, has one header for each sector after the super block.
MOST = 192 * MIB // LARGE - 1


def of_zeros(entries, end):
    """A file without an end that begins as a raw log of that many empty writes, as far as byte `end`."""
    return Long(lambda: raw(LARGE, [], count=entries).ljust(end, b"\0"))


LIMITS = [
    Row("import: 192 MiB", "import raw", {"raw": of_zeros(MOST, 192 * MIB)}, Long(lambda: raw(SECTOR, [], count=MOST) + bytes(SECTOR * MOST))),
    Row(
        "import: a sector more",
        "import raw",
        {"raw": of_zeros(MOST + 1, 192 * MIB + LARGE)},
        status=2,
        error=f"refused 10 at {MOST}",
        notes=[
            "a log has at most 67108864 bytes, 65536 entries, and 262144 sectors written or discarded (docs/LOG-FORMAT.md, Limits)",
            "record less at once; make file systems without discards",
        ],
    ),
    Row("import: a sector more, cut", "import raw", {"raw": of_zeros(MOST + 1, 192 * MIB)}, status=2, error=f"refused 10 at {MOST}"),
    Row("import: a sector less", "import raw", {"raw": of_zeros(MOST, 192 * MIB - 1)}, status=2, error=f"refused 5 at {MOST - 1}"),
]

# Within the limits of --large: a device of 4,194,304 sectors of 4,096 bytes, and a log of more than 64 MiB.
BEYOND = raw(LARGE, [(2048, 1, 0, content(1)), (4194303, 1, FLUSH, content(1, 5)), (4194000, 304, DISCARD, b"")])
LONG = [(0, 2048, 0, bytes(8 * MIB))] * 8
WITHIN = [
    Row("import: on a large device", "import raw --large", {"raw": BEYOND}, small([(2048, 1, 0, content(1)), (4194303, 1, FLUSH, content(1, 5)), (4194000, 304, DISCARD, b"")])),
    refused("import: on a large device, without --large", "import raw", {"raw": BEYOND}, "refused 9 at 0"),
    refused("import: after a large device", "import raw --large", {"raw": raw(LARGE, [(4194303, 2, DISCARD, b"")])}, "refused 9 at 0"),
    Row("import: a long log", "import raw --large", {"raw": Long(lambda: raw(LARGE, LONG))}, Long(lambda: small(LONG))),
    refused("import: a long log, without --large", "import raw", {"raw": Long(lambda: raw(LARGE, LONG))}, "refused 10 at 7"),
    Row("import: with --large as without", "import raw --large", {"raw": raw(LARGE, ALL)}, small(ALL)),
    refused("import: units, with --large", "import raw --large", {"raw": raw(LARGE, [(0, 262144, DISCARD, b""), (0, 1, DISCARD, b"")])}, "refused 10 at 1"),
    Row(
        "import: more than 192 MiB, with --large",
        "import raw --large",
        {"raw": of_zeros(MOST + 1, 192 * MIB + LARGE)},
        Long(lambda: raw(SECTOR, [], count=MOST + 1) + bytes(SECTOR * (MOST + 1))),
    ),
    Row(
        "import: more than 1 GiB comes out",
        "import raw --large",
        {"raw": raw(LARGE, [(0, 262144, 0, b"")])},
        status=2,
        error="refused 10 at 0",
        notes=[
            "with --large a log has at most 1073741824 bytes, 65536 entries, and 2097152 sectors written or discarded (docs/LOG-FORMAT.md, Limits)",
            "record less at once; make file systems without discards",
        ],
    ),
    refused("import: more than 1 GiB is needed", "import raw --large", {"raw": raw(LARGE, [(0, 0, 0, b"")] * 9 + [(0, 262135, 0, b"")])}, "refused 10 at 9"),
    refused("import: 1 GiB is needed, cut", "import raw --large", {"raw": raw(LARGE, [(0, 0, 0, b"")] * 9 + [(0, 262133, 0, b"")])}, "refused 5 at 9"),
]

# The last image: what the entries do to a device of sectors of 4,096 bytes, one after the other.
DEVICE = 16


def last_image(entries):
    """The device after all entries, by the raw log."""
    device = bytearray(DEVICE * LARGE)
    for sector, count, flags, data in entries:
        if not flags & MARK:
            device[sector * LARGE : (sector + count) * LARGE] = bytes(count * LARGE) if flags & DISCARD else data
    return bytes(device)


def random_entries(seed):
    """Writes over one another, discards, flushes and marks."""
    chance = random.Random(seed)
    entries = []
    for number in range(chance.randrange(1, 12)):
        sector = chance.randrange(DEVICE)
        count = chance.randrange(1, DEVICE - sector + 1)
        kind = chance.choice([0, 0, 0, FLUSH, FUA, DISCARD, MARK])
        if kind == MARK:
            entries.append((0, 0, MARK, b"m%d" % number))
        else:
            entries.append((sector, count, kind, b"" if kind == DISCARD else chance.randbytes(count * LARGE)))
    return entries


def last(name, entries):
    """What is imported of a raw log, and its last image, which is the raw log's."""
    words = f"image log --cut {len(entries)} --choice - --sectors {8 * DEVICE}"
    return [
        imported(name, raw(LARGE, entries) + b"\x5a" * 700, small(entries)),
        Row(f"import: the last image of {name}", words, {"log": small(entries)}, last_image(entries)),
    ]


LAST = [row for seed in range(12) for row in last(f"random entries {seed}", random_entries(seed))]

ROWS = [
    *IMPORTED,
    *PIPED,
    *LIMITS,
    *WITHIN,
    *LAST,
    *[refused(f"import: {name}", "import raw", {"raw": text}, f"refused {error}") for name, text, error in REFUSED],
    refused("import: no such file", "import raw", {}, "refused 14 at 0"),
    refused("import: a hole of 10 GiB", "import raw", {"raw": Hole(10 << 30)}, "refused 2 at 0"),
    Row(
        "import: the notes of a raw log that is cut short",
        "import raw",
        {"raw": raw(LARGE, ALL[:3])[:-1]},
        status=2,
        error="refused 5 at 2",
        notes=[
            "the file ends within the entry, its header or its data (docs/LOG-FORMAT.md, Layout)",
            "copy more of the log device; in a log of your own the number of entries stands at byte 16",
            "the header of entry 2 has sector 7 count 1 flags 18 length 0",
            f"the file has {LARGE * 7 - 1} bytes; the entry ends at byte {LARGE * 7}",
        ],
    ),
]
