"""How the rows of the tests are written down: logs, programs, reports, and the row itself.

A log is a list of entries in the short form of docs/LOG-FORMAT.md: W (write), F (flush), D (discard), M (mark). An entry
may also be a piece of bytes, for logs that lie. A program is bytes, or an assembly text that the program under test
assembles itself (the rows of rows/encodings.py and rows/texts.py show that it does that rightly).
"""
import struct
import textwrap
from dataclasses import dataclass, field
from pathlib import Path

TESTS = Path(__file__).resolve().parent.parent
TOP = TESTS.parent

SECTOR = 512
MAGIC = b"rhswfsj\0"
FLUSH, FUA, DISCARD, MARK, METADATA = 1, 2, 4, 8, 16

# The first line of every report.
FIRST_LINE = "crash report 2\n"


# Logs


@dataclass(frozen=True)
class Entry:
    """An entry of a log: the fields of its header, a mark's text, and the data that follows the header."""

    sector: int = 0
    count: int = 0
    flags: int = 0
    text: bytes = b""
    data: bytes = b""

    def encoded(self):
        return header(self.sector, self.count, self.flags, len(self.text), self.text) + self.data


def W(sector, count, byte, flags=0):
    """A write of `count` sectors from `sector` on, every byte `byte`."""
    return Entry(sector, count, flags, data=bytes([byte]) * (SECTOR * count))


def S(sector, data, flags=0):
    """A write of these bytes, which are whole sectors."""
    return Entry(sector, len(data) // SECTOR, flags, data=data)


F = Entry(flags=FLUSH)


def D(sector, count, flags=0):
    """A discard of `count` sectors from `sector` on."""
    return Entry(sector, count, DISCARD | flags)


def M(text, flags=0):
    """A mark with that text."""
    return Entry(flags=MARK | flags, text=text.encode())


def random_entry(chance, sectors, odds, counts, flags, content, text=b"m"):
    """An entry of a device of that many sectors: below each of the odds a mark, a flush or a discard, else a write of `content()` a sector.

    `flags` has pairs of how often and which flag of what has sectors.
    """
    kind = chance.random()
    if kind < odds[0]:
        return Entry(flags=MARK, text=text)
    if kind < odds[1]:
        return Entry(flags=FLUSH)
    count = min(sectors, chance.choice(counts))
    at = chance.randrange(sectors - count + 1)
    set_flags = sum((chance.random() < often) * flag for often, flag in flags)
    if kind < odds[2]:
        return Entry(at, count, DISCARD | set_flags)
    return S(at, b"".join(content() for _ in range(count)), set_flags)


def header(sector=0, count=0, flags=0, data_len=0, text=b"", unused=b"\0"):
    """A header sector of any fields."""
    return (struct.pack("<QQQQ", sector, count, flags, data_len) + text).ljust(SECTOR, unused)


def super_block(entries, magic=MAGIC, version=1, sector_size=SECTOR, unused=b"\0"):
    """A super block of any fields."""
    return (magic + struct.pack("<QQI", version, entries, sector_size)).ljust(SECTOR, unused)


def log(entries):
    """The bytes of the log of these entries."""
    return super_block(len(entries)) + b"".join(it if isinstance(it, bytes) else it.encoded() for it in entries)


def entries_of(content):
    """The entries of a log whose text is in order."""
    at, found = SECTOR, []
    for _ in range(struct.unpack_from("<Q", content, 16)[0]):
        sector, count, flags, length = struct.unpack_from("<4Q", content, at)
        text = content[at + 32 : at + 32 + length]
        end = at + SECTOR * (1 if flags & (DISCARD | MARK) else 1 + count)
        found.append(Entry(sector, count, flags, text, content[at + SECTOR : end]))
        at = end
    return found


# Programs


class Assembly(str):
    """A program as the text that says it."""


def program(text):
    """A program as docs write it in one line, where `;` ends an instruction."""
    return Assembly(text.replace("; ", "\n") + "\n")


def named(name):
    """A program of the folder programs/."""
    return Assembly((TESTS / "programs" / f"{name}.s").read_text())


def code(digits):
    """A program as the hexadecimal digits of its bytes."""
    return bytes.fromhex(digits)


# Reports


def lines(text):
    """The lines of an indented text, each with its newline."""
    return textwrap.dedent(text).lstrip("\n")


def report(text):
    """A report, given without its first line."""
    return FIRST_LINE + lines(text)


# Rows

# How long a run may take, if its row says nothing else; most take some milliseconds.
SECONDS = 20

# How many bytes a limited file may have.
LIMITED = 4096


class Folder:
    """Stands for a folder where a file is meant."""


@dataclass(frozen=True)
class Link:
    """Stands for a symbolic link to that name."""

    to: str


@dataclass(frozen=True)
class Locked:
    """Stands for a file of this content that nobody may read."""

    content: bytes


@dataclass(frozen=True)
class Hole:
    """Stands for a file of that many zeros that take no room on a disk, `end` after them, and `begun` before them."""

    zeros: int
    end: bytes = b""
    begun: bytes = b""


class Something:
    """Stands for an output that is there and isn't compared."""


class OfInputs(str):
    """Stands for an output with the line `inputs ?`, in which ? is the number of the run's inputs: of the files `log`, `p0`, `p1`, .. of the
    row."""


class Printable:
    """Stands for an output that has these texts, and nothing but lines of printable ASCII characters."""

    def __init__(self, *texts):
        self.texts = [it.encode() for it in texts]

    def lacks(self, found):
        """What the output hasn't, as a list of sentences."""
        strange = sorted({it for it in found if it != 10 and not 32 <= it <= 126})
        lacking = [f"{it} isn't there" for it in self.texts if it not in found]
        return lacking + ([f"it has the bytes {strange}"] if strange else [])


class Long:
    """Stands for a content or an output that is made only when its row is run."""

    def __init__(self, make):
        self.make = make


# What stands for a character that separates words, or that no text shows.
PICTURED = {**{0x2400 + it: it for it in range(32)}, ord("␡"): 0x7F, ord("␣"): 0x20}


@dataclass(frozen=True)
class Row:
    """One run of the program.

    name    what the row is about; no two rows have the same
    words   the words after the program's name, separated by spaces; within a word the pictures of control characters stand
            for these (`␛`, `␊`, `␡`), and `␣` for a space
    files   the files that lie in the folder of the run, by name: bytes, a text, an Assembly, a Folder, a Link, a Locked, a Hole, a
            Long
    out     standard output, as bytes, text or Long, or Something
    status  the status
    error   standard error without its notes: its one line without the newline; "" for nothing; Something; Printable;
            None where nothing is asked of it
    to      where standard output goes: "pipe", "closed", "full" (a full disk), "unread" (a pipe that nobody reads),
            "limited" (a file that may have LIMITED bytes; `out` is then what the file holds), or "silent" (a pipe, but
            standard error is closed). Or a pipe with other surroundings: "narrow" (a second of processor time and 200 MB),
            "endless" (the same, and the file `pipe` is a pipe that is written without end), "piped" (the same, and the
            file `pipe` is a pipe of what `whole` holds)
    seconds how long the run may take
    notes   the notes on standard error, each without `note: ` and the newline; None where nothing is asked of them
    before  the notes with which standard error begins, before the run and what `--progress` says; `notes` and `error` are the rest
    images  how many images the line of `--progress` ends with, judged and in all, or a list of them where there are
            several runs, or of a run of cases a text such as "3 cases"; standard error begins with these lines, and `error` is
            the rest. None where there is no such line
    """

    name: str
    words: str
    files: dict = field(default_factory=dict)
    out: object = b""
    status: int = 0
    error: object = ""
    to: str = "pipe"
    seconds: int = SECONDS
    notes: object = None
    before: tuple = ()
    images: object = None

    def word_list(self):
        return [it.translate(PICTURED) for it in self.words.split()]


@dataclass(frozen=True)
class Pair:
    """Two runs of the program that differ in one option, and where what they print differs.

    name    as of a row
    words   the words of the first run
    other   the words of the second run
    files   the files of both, as of a row
    statuses    the statuses of the two runs
    differ  where they differ: "out" or "error" for any byte of an output, "out 2" for its second line, "out -1" for its last
            one. Outputs that aren't named are the same
    holds   texts that the outputs of the second run hold, and those of the first don't
    """

    name: str
    words: str
    other: str
    files: dict
    statuses: tuple = (0, 0)
    differ: tuple = ("out",)
    holds: tuple = ()
    to: str = "pipe"
    seconds: int = SECONDS

    def runs(self):
        """The two runs as rows of which nothing is expected."""
        return [Row(self.name, words, self.files, to=self.to, seconds=self.seconds) for words in (self.words, self.other)]


def files(entries, *programs):
    """The files of `explore`: the log of these entries, and the programs p0, p1, .."""
    content = entries if isinstance(entries, (bytes, Long, Folder)) else log(entries)
    return {"log": content, **{f"p{number}": it for number, it in enumerate(programs)}}


def explore(name, options, entries, programs, out, status, seconds=SECONDS):
    """A row of `explore` that gives a report; `programs` is one program or a list of them."""
    programs = programs if isinstance(programs, list) else [programs]
    names = " ".join(f"p{number}" for number in range(len(programs)))
    return Row(name, f"explore log {names} {options}", files(entries, *programs), out, status, seconds=seconds)


def refused(name, words, content, error):
    """A row that is refused: nothing on standard output, one line on standard error, status 2."""
    return Row(name, words, content, status=2, error=error)


def unexplored(name, options, entries, programs, error):
    """A row of `explore` that is refused."""
    row = explore(name, options, entries, programs, b"", 2)
    return refused(name, row.words, row.files, error)


def verified(name, text, answer, sectors=4):
    """A row of `verify`: the answer is "accepted budget N" or "refused NN at K"; `text` a line or a program."""
    content = {"p": text if isinstance(text, (bytes, Assembly)) else program(text)}
    words = f"verify p --sectors {sectors}"
    if answer.startswith("refused"):
        return refused(name, words, content, answer)
    return Row(name, words, content, answer + "\n")
