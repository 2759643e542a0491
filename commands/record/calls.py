"""Reads what strace wrote: which process made which call, when it began, when it ended, and what it answered.

strace is run with the options of `traced.py`: a line begins with the number of the process (-f), all strings are in hex and whole
(-xx, -s), and descriptors have the path of their file (-y). So no byte of a string can be taken for a part of the line.

A call is one line, or two where lines of others stand between its begin and its end: `write(.. <unfinished ...>` and
`<... write resumed>) = 5`. Of a text that isn't such a line, or that is cut off, nothing is made: it is refused with its line.
"""
import binascii
import functools
import re
from collections import deque
from dataclasses import dataclass, field

HEX = r"(?:\\x[0-9a-f]{2})*"
# What stands in the place of a very long string, which is kept beside the text.
KEPT = r"@\d+\.\d+"
HEAD = re.compile(r"(\d{1,10}) +(.*)", re.S)
CALL = re.compile(r"(\w+)\(")
RESUMED = re.compile(r"<\.\.\. (\w+) resumed>")
ENDED = re.compile(r"\+\+\+ (?:exited with \d+|killed by \w+(?: \(core dumped\))?) \+\+\+")
SUPERSEDED = re.compile(r"\+\+\+ superseded by execve in pid (\d{1,10}) \+\+\+")
TOLD = re.compile(r"--- .* ---|\[ Process PID=\d+ runs in \w+ mode\. \]")
UNFINISHED = " <unfinished ...>"
# A call that strace couldn't look at any more, since its process was being ended. Linux doesn't make such a call (ptrace_report_syscall of
# include/linux/ptrace.h, and __seccomp_filter of kernel/seccomp.c).
UNTOLD = f"???({UNFINISHED}"
# A string, the path of a descriptor, a remark, a bracket, a comma, and what stands between these.
TOKEN = re.compile(rf'"(?:{HEX}|{KEPT})"(?:\.\.\.)?|<{HEX}>(?:\(deleted\))?|/\*.*?\*/|[()\[\]{{}}]|,|[^"<>/()\[\]{{}},]+|[<>/]')
RESULT = re.compile(rf"\) += (0x[0-9a-f]{{1,16}}|-?\d{{1,20}}|\?)(?:<({HEX})>(\(deleted\))?)?(?: ([A-Z]\w*) \(.*\))?((?: .*)?)", re.S)
NAMED = re.compile(rf"(?<![\w\\])(\d{{1,10}}|AT_FDCWD)<({HEX})>(\(deleted\))?")
STRING = re.compile(rf'"({HEX}|{KEPT})"(\.\.\.)?')
# The most characters of a line, and of one that is shown; how many a string has at least that is looked at as a whole, and one that is
# kept beside its line, which no path is.
LINE, SHOWN, LONG, VERY_LONG = 1 << 29, 300, 1 << 12, 1 << 16


class Refused(Exception):
    """Why there is no log."""


@dataclass
class Call:
    """A call: its words as strace wrote them, and what it answered, once it has ended."""

    process: int
    name: str
    text: str
    line: int
    words: list = field(default_factory=list)
    # the answer, or nothing where it never came; the error; the path of the descriptor that was answered, and whether that is gone
    result: int | None = None
    error: str | None = None
    path: bytes | None = None
    gone: bool = False
    rest: str = ""
    whole: bool = False
    # the line at which it ended; the call as people write it; the process in which it was made, as it was then
    ended: int = 0
    told: str = ""
    maker: object = None
    # where a write began; the line of the source that made the call, where the program tells it
    place: int = 0
    source: object = None
    # the line with its last part
    last: int = 0
    # whether another thread changed the folder of the process while it was in flight
    astray: bool = False
    # the very long strings of its text, by what stands in their place
    kept: dict = field(default_factory=dict, repr=False)

    def number(self, at):
        """The number that a word is."""
        found = re.match(r"0x[0-9a-f]{1,16}(?![\w.])|-?\d{1,20}(?![\w.])", self.word(at))
        if not found:
            raise Refused(f"{self}: {shown(self.word(at))[:40]} is no number")
        return number(found[0])

    def moved_to(self):
        """The place to which an lseek moved its descriptor. That of 32-bit programs answers it by a word."""
        found = re.fullmatch(r"\[(\d{1,20})\]", self.word(2)) if self.name == "_llseek" else None
        if self.name == "_llseek" and not found:
            raise Refused(f"{self}: {shown(self.word(2))[:40]} is no place")
        return int(found[1]) if found else self.result

    def word(self, at):
        if at >= len(self.words):
            raise Refused(f"{self}: it has too few words")
        return self.words[at]

    def data(self, at):
        """The bytes of the string that a word is, all of them."""
        return string(self.word(at), self)

    def pieces(self, at):
        """The bytes of the vectors that a word lists."""
        parts = self.word(at).split('"')
        text = '""'.join(parts[::2])
        if not re.fullmatch(r'\[(?:\{iov_base=(?:""|NULL|0x[0-9a-f]+), iov_len=\d+\}(?:, )?)*\]', text):
            raise Refused(f"{self}: its vectors aren't whole")
        if any(length != "0" for length in re.findall(r"iov_base=[N0]\w+, iov_len=(\d+)", text)):
            raise Refused(f"{self}: its vectors can't be read")
        return b"".join(string(f'"{it}"', self) for it in parts[1::2])

    def failed(self):
        """Whether it ended without having done anything."""
        return self.error is not None

    def short(self):
        """Its text, of a very long string the begin alone."""
        return re.sub(f'"({KEPT})"', lambda it: f'"{hexed(self.kept.get(it[1], b"")[:64])}"..', self.text)

    def __str__(self):
        return f"calls:{self.line}: {shown(f'{self.process} {self.short()}')}"


def number(text):
    return int(text, 16 if text.startswith("0x") else 10)


def unhexed(text):
    return bytes.fromhex(text.replace("\\x", ""))


def hexed(data):
    """Bytes as strace writes them."""
    return "".join(f"\\x{it:02x}" for it in data)


def long_bytes(raw):
    """The bytes of a long text in hex, or nothing where it isn't one. A pattern would take seconds for megabytes."""
    count = len(raw) // 4
    if len(raw) != 4 * count or raw[0::4].count(b"\\") != count or raw[1::4].count(b"x") != count:
        return None
    try:
        return binascii.unhexlify(raw.translate(None, b"\\x"))
    except binascii.Error:
        return None


def without_long(number, line):
    """A line without its very long strings: each of its steps would copy them. Returns it with these, by what stands in their place."""
    kept, parts, at = {}, [], 0
    while len(line) > VERY_LONG:
        begin = line.find(b'"', at) + 1
        end = line.find(b'"', begin) if begin else -1
        if end < 0:
            break
        data = long_bytes(line[begin:end]) if end - begin > VERY_LONG else None
        name = f"@{number}.{len(kept)}"
        parts += [line[at:begin], line[begin:end] if data is None else name.encode(), b'"']
        kept |= {} if data is None else {name: data}
        at = end + 1
    return b"".join([*parts, line[at:]]), kept


def string(text, call):
    """Returns the bytes of a string in hex, which strace has to give whole."""
    if len(text) > LONG and text[0] == text[-1] == '"':
        found = long_bytes(text[1:-1].encode())
        if found is not None:
            return found
    found = STRING.fullmatch(text)
    if not found:
        raise Refused(f"{call}: {text[:40]} is no string in hex")
    if found[2]:
        raise Refused(f"{call}: strace cut its string off")
    if found[1] in call.kept:
        return call.kept[found[1]]
    if "@" in found[1]:
        raise Refused(f"{call}: {text[:40]} is no string in hex")
    return unhexed(found[1])


def token_at(text, at):
    """The token that a text has at a place, or nothing."""
    if text[at] == '"' and text.find('"', at + 1, at + LONG) < 0:
        end = text.find('"', at + 1) + 1
        # (what stands in it is looked at where it is read)
        return text[at : end + 3 if text.startswith("...", end) else end] or None
    found = TOKEN.match(text, at)
    return found and found[0]


def shown(text):
    """A line of strace, short and with its strings as text."""
    if len(text) > 40 * SHOWN:
        text = re.sub(rf'("{HEX[:-1]}{{0,64}})[^"]*"', r'\1"..', text)

    def plain(found):
        read = unhexed(found[0]).decode("latin-1")
        return "".join(it if it.isprintable() and it.isascii() else "." for it in read)

    text = re.sub(r"(?:\\x[0-9a-f]{2})+", plain, text)
    text = "".join(it if it.isprintable() else "?" for it in text)
    return text if len(text) <= SHOWN else f"{text[:SHOWN]}.."


def words_of(text, at, begun):
    """The words between the brackets of a call, which begin at a place, and what stands from the closing bracket on. `begun` is said of
    a call that hasn't ended, in whose text there is no such bracket."""
    depth, words, word = 1, [], []
    while at < len(text):
        token = token_at(text, at)
        if not token:
            raise Refused(f"it can't be read from {text[at : at + 20]!r} on")
        if token in ")]}":
            depth -= 1
            if depth == 0:
                words.append("".join(word).strip())
                return words, text[at:]
        depth += token in "([{"
        if token == "," and depth == 1:
            words.append("".join(word).strip())
            word = []
        else:
            word.append(token)
        at += len(token)
    if not begun:
        raise Refused("it has no end")
    return [*words, "".join(word).strip()], ""


def parsed(text, name, begun):
    """The words of a call's text, and the parts of what it answered, which are none where it hasn't ended."""
    words, rest = words_of(text, len(name) + 1, begun)
    if begun:
        return words, None
    found = RESULT.fullmatch(rest)
    if not found:
        raise Refused("what it answered can't be read")
    return words, found.groups()


# (crashbpf-test follows the same calls many times)
known = functools.lru_cache(maxsize=1 << 14)(parsed)


def read(call, begun):
    """Reads the words of a call and what it answered."""
    try:
        words, answered = (known if len(call.text) <= LONG else parsed)(call.text, call.name, begun)
    except Refused as why:
        raise Refused(f"{call}: {why}") from None
    call.words = list(words)
    if answered is None:
        return
    value, path, gone, call.error, call.rest = answered
    call.gone = gone is not None
    call.result = None if value == "?" else number(value)
    call.path = None if path is None else unhexed(path)
    call.whole = True
    if call.result == -1 and not call.error:
        raise Refused(f"{call}: it failed, and its error can't be read")


def lines_of(stream, among=()):
    """The lines of strace's text with their numbers, and the very long strings that they have; where `among` has words those alone that
    have one of these, and no very long one."""
    number, most = 0, MOST_MADE if among else LINE
    while line := stream.readline(most + 1):
        number += 1
        is_long = len(line) > most
        while among and line and not line.endswith(b"\n"):
            line = stream.readline(PASSED)
        if not line.endswith(b"\n"):
            raise Refused(f"calls:{number}: the line is cut off")
        if among and (is_long or not any(it in line for it in among)):
            continue
        line, kept = without_long(number, line)
        if not line.isascii():
            raise Refused(f"calls:{number}: it isn't of strace -xx")
        yield number, line[:-1].decode(), kept


def happened(stream, wanted, among=()):
    """What happened, in its order: pairs of `begin` or `end` and a call; `over` and a call that its process never ended;
    `gone` and the number of a process; `moved` and the numbers of two, of which the first goes on as the second.

    Only calls with the names of `wanted` are read, the others have no words. Lines are left out as `lines_of` says. A call that nothing came between begins and ends
    at its line."""
    begun, untold = {}, set()
    for line, text, kept in lines_of(stream, among):
        head = HEAD.fullmatch(text)
        if not head:
            raise Refused(f"calls:{line}: no line of strace: {shown(text)}")
        process, text = int(head[1]), head[2]
        if process in untold and not ENDED.fullmatch(text):
            raise Refused(f"calls:{line}: process {process} goes on after a call that strace didn't see: {shown(text)}")
        if text == UNTOLD and process not in begun:
            untold.add(process)
            continue
        if text.startswith("+++"):
            untold.discard(process)
            superseded = SUPERSEDED.fullmatch(text)
            if superseded:
                other = int(superseded[1])
                if other in begun:
                    begun[process] = begun.pop(other)
                    begun[process].process = process
                yield "moved", (other, process)
            elif ENDED.fullmatch(text):
                if process in begun:
                    yield "over", begun.pop(process)
                yield "gone", process
            else:
                raise Refused(f"calls:{line}: no line of strace: {shown(text)}")
            continue
        if TOLD.fullmatch(text):
            continue
        resumed = RESUMED.match(text)
        if resumed:
            call = begun.pop(process, None)
            if call is None or call.name != resumed[1]:
                raise Refused(f"calls:{line}: it ends a call that didn't begin: {shown(text)}")
            call.text += text[resumed.end() :]
            call.kept |= kept
        else:
            found = CALL.match(text)
            if not found:
                raise Refused(f"calls:{line}: no line of strace: {shown(text)}")
            if process in begun:
                raise Refused(f"calls:{line}: process {process} begins a call within another: {shown(text)}")
            call = Call(process, found[1], text, line, kept=kept)
        call.last, unfinished = line, call.text.endswith(UNFINISHED)
        if unfinished:
            call.text = call.text[: -len(UNFINISHED)]
            begun[process] = call
        if call.name in wanted:
            read(call, unfinished)
        if not resumed:
            yield "begin", call
        if not unfinished:
            call.ended = line
            yield "end", call
    if begun:
        raise Refused(f"{next(iter(begun.values()))}: the text ends within this call")
    if untold:
        raise Refused(f"calls: the text ends before process {min(untold)} does")


@dataclass(frozen=True)
class Made:
    """How a process came to be."""

    parent: int
    flags: str
    line: int


MAKES = ("clone", "clone3", "fork", "vfork")
# What their lines have, and those of processes that end, and how long such a line is at most.
OF_MAKES, MOST_MADE = (b"clone", b"fork", b"+++"), 1 << 16
# How much of a longer line is passed over at a time.
PASSED = 1 << 20


def child_of(call):
    """The number that strace has for the process that a call made."""
    inside = re.search(r"/\* (\d+) in strace's PID NS \*/", call.rest)
    return int(inside[1]) if inside else call.result


def makers(stream):
    """Which process made which: of each number of a process the calls that made one of it, in their order."""
    found = {}
    for kind, call in happened(stream, MAKES, OF_MAKES):
        if kind == "end" and call.name in MAKES and call.result and not call.failed():
            flags = call.text if call.name.startswith("clone") else call.name
            found.setdefault(child_of(call), deque()).append(Made(call.process, flags, call.line))
    return found


def brief(text):
    """A line without what stands in its strings, where it is long."""
    return '""'.join(text.split('"')[::2]) if len(text) > LONG else text


def named(text):
    """The descriptors that a line names: number, path, whether its file is unlinked."""
    return [(it[0], unhexed(it[1]), bool(it[2])) for it in NAMED.findall(text)]
