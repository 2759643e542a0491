"""Logs as tables, and listings with slots (docs/OUTPUT.md, The text of `log` and The other texts)."""
from notation import FLUSH, FUA, METADATA, D, Entry, F, M, Row, W, files, lines, program, refused, super_block


def shown(name, entries, table, words="log log"):
    """A log, and its table."""
    return Row(f"the table of {name}", words, files(entries), lines(table))


# All kinds of entries, with the epochs between them.
KINDS = [
    W(3, 1, 0xAA),
    F,
    W(0, 2, 0xBB, FUA),
    W(1, 1, 0xCC, FLUSH | METADATA),
    D(2, 2),
    D(0, 4, FLUSH),
    M("commit 1"),
    Entry(flags=FLUSH | FUA | METADATA),
    Entry(sector=7),
]

KINDS_TABLE = """
    entry 0 epoch 0 write sector 3 count 1
    entry 1 epoch 0 flush
    entry 2 epoch 1 write fua sector 0 count 2
    entry 3 epoch 1 write flush metadata sector 1 count 1
    entry 4 epoch 2 discard sector 2 count 2
    entry 5 epoch 2 flush discard sector 0 count 4
    entry 6 epoch 3 mark text "commit 1"
    entry 7 epoch 3 flush fua metadata
    entry 8 epoch 4
    """

TABLES = [
    shown("a log without entries", [], ""),
    shown("all kinds", KINDS, KINDS_TABLE),
    shown("all kinds, on their device", KINDS, KINDS_TABLE, "log --sectors 4 log"),
    shown("the last sectors of the largest device", [W(16382, 2, 1)], "entry 0 epoch 0 write sector 16382 count 2\n"),
    shown("a log with a sector that no entry uses", [Entry(2**64 - 1)], "entry 0 epoch 0\n"),
]


def mark(text, told):
    """A mark whose text is these bytes, and how it is told."""
    return Row(f"the text of a mark: {told}", "log log", files([Entry(flags=8, text=text)]), f'entry 0 epoch 0 mark text "{told}"\n')


MARKS = [
    mark(b"", ""),
    mark(b" ~!#[]^a{|}", " ~!#[]^a{|}"),
    mark(b'"quoted"', "\\x{22}quoted\\x{22}"),
    mark(b"a\\b", "a\\x{5c}b"),
    mark(b"two\nlines\r\t", "two\\x{a}lines\\x{d}\\x{9}"),
    mark(b"\0\x1f\x7f\x80\xff", "\\x{0}\\x{1f}\\x{7f}\\x{80}\\x{ff}"),
    mark("é".encode(), "\\x{c3}\\x{a9}"),
    mark(b"x" * 480, "x" * 480),
    Row(
        "the text of a mark with a sector and metadata",
        "log log",
        files([Entry(7, 0, 24, b"aba")]),
        'entry 0 epoch 0 mark metadata text "aba"\n',
    ),
]

REFUSED = [
    refused("no log, log", "log log", {}, "refused 14 at 0"),
    refused("log on no sector", "log log --sectors 0", files(KINDS), "refused 13 at 1"),
    refused("log on too many sectors", "log log --sectors 16385", files(KINDS), "refused 13 at 1"),
    refused("log, an option before the file", "log log --sectors 0", {}, "refused 13 at 1"),
    refused("log on a device that is too small", "log log --sectors 3", files(KINDS), "refused 9 at 0"),
    refused("log past the largest device", "log log", files([F, W(16383, 2, 1)]), "refused 9 at 1"),
    refused("log of no log", "log log", files(b"no log".ljust(512)), "refused 2 at 0"),
    refused("log of a log that is cut short", "log log", files(super_block(1)), "refused 5 at 0"),
]

LISTINGS = [
    Row("list --slots", "list --slots p", {"p": program("mov64 r0, 1; exit")}, "0: mov64 r0, 1\n1: exit\n"),
    Row("list --slots after the file", "list p --slots", {"p": program("exit")}, "0: exit\n"),
    Row(
        "list --slots counts a 64-bit immediate twice",
        "list p --slots",
        {"p": program("lddw r1, 7; jne r1, 0, -3; lddw r0, 0; exit")},
        "0: lddw r1, 7\n2: jne r1, 0, -3\n3: lddw r0, 0\n5: exit\n",
    ),
    Row(
        "list --slots of the longest program",
        "list p --slots",
        {"p": program("; ".join(["mov64 r0, 0"] * 4095 + ["exit"]))},
        "".join(f"{slot}: mov64 r0, 0\n" for slot in range(4095)) + "4095: exit\n",
    ),
    refused("list --slots of no program", "list p --slots", {"p": b""}, "refused 21 at 0"),
    refused("no program, list --slots", "list p --slots", {}, "refused 14 at 0"),
]

ROWS = [*TABLES, *MARKS, *REFUSED, *LISTINGS]
