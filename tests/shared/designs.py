"""The designs of examples/: their logs once more, entry by entry, their checkers as the report sees them, and the runs whose texts
are stored."""
import struct

import model
from model import Checker, Run
from notation import FLUSH, TOP, F, M, S, W

EXAMPLES = TOP / "examples"
LOGS = TOP / "examples"


def data(path):
    return path.read_bytes()


def slot(number, mix, seal):
    """A slot of two_slots: the number of its commit, the mix of its payload, zeros, its last word."""
    return struct.pack("<QQ", number, mix) + bytes(488) + struct.pack("<Q", seal)


SLOTS = {
    1: slot(1, 0x2E4A227E63916D00, 0xCC457A777D2C2578),
    2: slot(2, 0xFA1AE4B20E52BA00, 0x37B8EBBC6CC6AAEF),
    3: slot(3, 0xC5EBA6E5B9140700, 0xA32C5D015C613066),
}


def record(number, seal):
    """A record of the journal: its number, its data, its last word."""
    return struct.pack("<Q", number) + bytes([0x11 * number]) * 496 + struct.pack("<Q", seal)


RECORDS = {1: record(1, 0xEAD00ACB7ED645A2), 2: record(2, 0xD5A01596FDAC8B43), 3: record(3, 0xC07020627C82D0E4)}


def count(records):
    """The header of a journal of that many records."""
    return struct.pack("<Q", records) + bytes(504)


def page(number):
    """A page: the number of its commit, its data, and a last word with which the mixes of its sectors have the sum 1."""
    body = bytes([0xC0 + number]) * 512
    sectors = [struct.pack("<Q", number) + body[8:], *[body] * 6, body[:504] + bytes(8)]
    seal = (1 - sum(model.mix(it) for it in sectors)) % 2**64
    return b"".join(sectors)[:-8] + struct.pack("<Q", seal)


def commit(number, slot_sector, area, flags):
    """The entries of a commit: its payload, its slot, a flush, a mark."""
    payload = W(area, 1, 0xA0 + number)
    return [payload, S(slot_sector, SLOTS[number], flags), F, M(f"commit {number}")]


def two_slots(flags):
    return [*commit(1, 1, 3, flags), *commit(2, 0, 2, flags), *commit(3, 1, 3, flags)]


JOURNAL_RIGHT = [
    S(1, RECORDS[1]),
    S(2, RECORDS[2]),
    S(0, count(2), FLUSH),
    F,
    M("record 1"),
    M("record 2"),
    S(3, RECORDS[3]),
    S(0, count(3), FLUSH),
    F,
    M("record 3"),
]

JOURNAL_WRONG = [
    S(0, count(2)),
    S(1, RECORDS[1]),
    S(2, RECORDS[2]),
    F,
    M("record 1"),
    M("record 2"),
    S(0, count(3)),
    S(3, RECORDS[3]),
    F,
    M("record 3"),
]


def pages(flags):
    """The entries of three commits: each its page, its header, a flush, a mark."""
    return [
        entry
        for number in [1, 2, 3]
        for entry in [S(8 + 8 * (number % 2), page(number)), S(0, count(number), flags), F, M(f"commit {number}")]
    ]


# The header and all records that it counts in one write.
JOURNAL_AT_ONCE = [
    S(0, count(2) + RECORDS[1] + RECORDS[2]),
    F,
    M("record 1"),
    M("record 2"),
    S(0, count(3) + RECORDS[1] + RECORDS[2] + RECORDS[3]),
    F,
    M("record 3"),
]


def sealed(content):
    """A sector that begins so, with a last word that makes its mix 1."""
    body = content + bytes(8)
    return content + struct.pack("<Q", (1 - model.mix(body)) % 2**64)


def leaf(commit, side):
    """A leaf of the tree: the commit that wrote it, its data, its last word. Side 0xd0 is the left one, 0xe0 the right one."""
    return sealed(struct.pack("<Q", commit) + bytes([side + commit]) * 496)


def root(commit, left, right):
    """A root node of the tree, by the sector and the commit of each leaf."""
    return sealed(struct.pack("<5Q", commit, *left, *right) + bytes(464))


def top(commit, sector):
    """The header of the tree."""
    return struct.pack("<QQ", commit, sector) + bytes(496)


# What each commit of the tree writes: its leaves, its root node, its header.
TREE_COMMITS = [
    ([S(1, leaf(1, 0xD0)), S(2, leaf(1, 0xE0))], S(3, root(1, (1, 1), (2, 1))), top(1, 3)),
    ([S(4, leaf(2, 0xD0))], S(5, root(2, (4, 2), (2, 1))), top(2, 5)),
    ([S(1, leaf(3, 0xE0))], S(3, root(3, (4, 2), (1, 3))), top(3, 3)),
]


def tree(flags):
    """The entries of three commits: each its leaves, its root node, its header, a flush, a mark."""
    return [
        entry
        for number, (leaves, node, header) in enumerate(TREE_COMMITS, 1)
        for entry in [*leaves, node, S(0, header, flags), F, M(f"commit {number}")]
    ]


# The header before the root node that it names, with a flush before the header.
TREE_ORDER = [
    entry
    for number, (leaves, node, header) in enumerate(TREE_COMMITS, 1)
    for entry in [*leaves, S(0, header, FLUSH), node, F, M(f"commit {number}")]
]


def small_page(page, version):
    """A page of two sectors: its version, its number, its data, and a last word with which the mixes have the sum 1."""
    body = bytes([0x40 + 0x10 * page + version]) * 512
    start = struct.pack("<QQ", version, page) + body[16:]
    seal = (1 - model.mix(start) - model.mix(body[:504] + bytes(8))) % 2**64
    return start + body[:504] + struct.pack("<Q", seal)


# What each commit of the double-write buffer writes: its two pages, with their versions.
PAGE_COMMITS = [((0, 1), (1, 1)), ((2, 1), (3, 1)), ((0, 2), (1, 2))]


def copies(pages, flags):
    """The copies of two pages, in one write."""
    return [S(8, b"".join(small_page(*it) for it in pages), flags)]


def in_place(pages, flags):
    """Two pages, each written in its place."""
    return [S(2 * page, small_page(page, version), flags if page % 2 == 0 else 0) for page, version in pages]


def double_write(flags):
    """The entries of three commits: each its copies, its pages, a flush, a mark."""
    return [
        entry
        for number, pages in enumerate(PAGE_COMMITS, 1)
        for entry in [*copies(pages, 0), *in_place(pages, flags), F, M(f"commit {number}")]
    ]


# The pages in place before their copies, with a flush between them.
DOUBLE_WRITE_ORDER = [
    entry
    for number, pages in enumerate(PAGE_COMMITS, 1)
    for entry in [*in_place(pages, 0), *copies(pages, FLUSH), F, M(f"commit {number}")]
]


# What the checkers of the designs are, and the runs whose texts are stored: each design's right version and those with a mistake.
JUDGES = {
    "two_slots": ("slots 39 budget 87", model.two_slots),
    "journal": ("slots 33 budget 144", model.journal),
    "pages": ("slots 53 budget 1026", model.pages),
    "tree": ("slots 51 budget 65", model.tree),
    "double_write": ("slots 75 budget 450", model.double_write),
}

DESIGNS = {
    "two_slots/right": Run(two_slots(FLUSH), 4, bound=2, tears=True),
    "two_slots/wrong": Run(two_slots(0), 4, bound=2, tears=True),
    "journal/right": Run(JOURNAL_RIGHT, 8, bound=2, tears=True),
    "journal/wrong": Run(JOURNAL_WRONG, 8),
    "journal/at_once": Run(JOURNAL_AT_ONCE, 8),
    "pages/right": Run(pages(FLUSH), 24, bound=2, tears=True, by="write"),
    "pages/wrong": Run(pages(0), 24, by="write"),
    "tree/right": Run(tree(FLUSH), 8, bound=2, tears=True),
    "tree/wrong": Run(tree(0), 8),
    "tree/order": Run(TREE_ORDER, 8),
    "double_write/right": Run(double_write(FLUSH), 12, bound=2, tears=True, by="write"),
    "double_write/wrong": Run(double_write(0), 12, bound=2),
    "double_write/order": Run(DOUBLE_WRITE_ORDER, 12),
}


# The runs of which it is stored why they fail.
EXPLAINED = {**DESIGNS, "pages/wrong": Run(pages(0), 24, bound=2, tears=True, by="write")}

# The images that are stored in words.
IN_WORDS = {
    "two_slots/wrong": 567,
    "journal/wrong": 17,
    "journal/at_once": 12,
    "pages/wrong": 18,
    "tree/wrong": 34,
    "tree/order": 24,
    "double_write/wrong": 190,
    "double_write/order": 2,
}


def folder_of(which):
    return which.split("/")[0]


def checker_of(which):
    """The checker of a design, as the report sees it."""
    return Checker(*JUDGES[folder_of(which)])


# The flushes that are forgotten in wrong versions; with them nothing fails.
FORGOTTEN = {
    "two_slots/wrong": (1, 5, 9),
    "pages/wrong": (9,),
    "tree/wrong": (3, 8, 13),
    "double_write/wrong": (1, 6, 11),
}

# Those that have no page, and whose logs are explored from their files too.
NEW = ["journal/at_once", *(which for which in DESIGNS if folder_of(which) in ("tree", "double_write"))]
