"""Says calls as people write them, and which entry of a log came of which call.

A call has names and not hex: `rename("new", "settings")`, `pwrite("log", 512 bytes at 1024)`, `mark saved-1`. Names are those in
the folder of the files, which is $FILES itself.
"""
import os
import re

from commands.record.calls import HEX, NAMED, Refused, shown, unhexed
from commands.record.disk import FLUSH, FUA, MARK
from commands.record.files import File
from commands.record.known import COPIES, OPENS, RANGES, SYNCS, WRITES

# What of the flags of an open says nothing to a reader.
UNTOLD = {"O_CLOEXEC", "O_LARGEFILE", "O_NOCTTY", "O_NONBLOCK", "O_NOFOLLOW", "O_DIRECTORY"}
# The name of a call without what tells its forms apart.
FORM = re.compile(r"(?<=[a-z])(?:64|at2?|at)$|(?<=pwritev)2$")
MOST = 60_000


def quoted(data):
    """Bytes as a text in quotes, those that can't be printed by their numbers."""
    text = os.fsdecode(data)
    plain = (it if it.isprintable() and it not in '"\\' else "".join(f"\\x{one:02x}" for one in it.encode("utf-8", "surrogateescape")) for it in text)
    return f'"{"".join(plain)}"'


def words_of(call, folder):
    """The words of the program that an execve starts, in which the folder is $FILES."""
    at = 2 if call.name == "execveat" else 1
    return tuple(unhexed(it).replace(folder, b"$FILES") for it in re.findall(rf'"({HEX})"', call.word(at)))


def command(words):
    """Words of a program as a reader types them; those with other signs than a path has in quotes."""
    texts = [os.fsdecode(it) for it in words]
    return " ".join(it if re.fullmatch(r"[\w@%+=:,./{}~$-]+", it) else quoted(os.fsencode(it)) for it in texts)


def named(tracing, path):
    """A path as a reader says it: by its name in the folder."""
    if path == tracing.folder:
        return "$FILES"
    return quoted(path[len(tracing.prefix) :] if path.startswith(tracing.prefix) else path)


def of_descriptor(tracing, call, at=0):
    """What a descriptor of a call is of."""
    found = NAMED.match(call.word(at))
    return named(tracing, unhexed(found[2])) if found else call.word(at)


def flags(text):
    return "|".join(it for it in re.findall(r"\bO_\w+", text) if it not in UNTOLD)


def of_names(tracing, call):
    """A call on one name or two."""
    if call.name.startswith(("rename", "link")):
        pair = ", ".join(named(tracing, it) for it in tracing.both_paths(call, "rename" if call.name.startswith("rename") else "link"))
        exchange = ", RENAME_EXCHANGE" if "RENAME_EXCHANGE" in (call.words[4:] or [""])[0] else ""
        return f"{FORM.sub('', call.name)}({pair}{exchange})"
    form = "rmdir" if call.name == "unlinkat" and "AT_REMOVEDIR" in call.word(2) else FORM.sub("", call.name)
    return f"{form}({named(tracing, tracing.own_path(call, f'{form}at' if form != 'rmdir' else 'unlinkat'))})"


def of_bytes(tracing, call):
    """A call on the bytes or the size of a file, or a mark."""
    form = FORM.sub("", call.name)
    if call.name in WRITES:
        if tracing.marks is not None and NAMED.match(call.word(0)) and unhexed(NAMED.match(call.word(0))[2]) == tracing.marks:
            return " ".join(f"mark {os.fsdecode(it)}" for it in re.findall(rb"(?m)^\d+ (.+)$", call.data(1) if call.name == "write" else call.pieces(1)))
        return f"{form}({of_descriptor(tracing, call)}, {call.result} bytes at {call.place})"
    if form == "fallocate":
        return f"fallocate({of_descriptor(tracing, call)}, {call.word(1)}, {call.word(3)} bytes at {call.word(2)})"
    if call.name in RANGES:
        start, length = (call.word(it + (call.name != RANGES[0])) for it in (1, 2))
        return f"{call.name}({of_descriptor(tracing, call)}, {length} bytes at {start})"
    what = of_descriptor(tracing, call) if form.startswith("f") else named(tracing, tracing.path(call, None, 0))
    return f"{form}({what}, {call.word(1)})"


def of_copy(tracing, call):
    """A call that copies from one descriptor to another."""
    source, _, to, _ = COPIES[call.name]
    return f"{FORM.sub('', call.name)}({of_descriptor(tracing, call, source)} to {of_descriptor(tracing, call, to)}, {call.result} bytes)"


def told(tracing, call):
    """A call as people write it."""
    form = FORM.sub("", call.name)
    try:
        if call.name in OPENS:
            return f"{form}({named(tracing, call.path or b'')}, {flags(call.word(1 if call.name in ('open', 'creat') else 2))})"
        if call.name in SYNCS:
            return f"{call.name}({of_descriptor(tracing, call) if call.words and call.words[0] else ''})"
        if call.name in COPIES:
            return of_copy(tracing, call)
        if form in ("rename", "link", "unlink", "rmdir", "mkdir"):
            return of_names(tracing, call)
        if call.name in WRITES or call.name in RANGES or form in ("truncate", "ftruncate", "fallocate"):
            return of_bytes(tracing, call)
    except Refused:
        pass
    return shown(call.short())


# What entries are of


def owners(tree):
    """The file that each place on the device is of, where it is no set of names."""
    places = {it.place: it for it in tree.files.values()}
    return {**places, **{room: it for it in tree.files.values() for room in it.rooms}}


def what(entry, files):
    """What an entry of a log is of."""
    if entry.kind == FLUSH:
        return "a flush"
    durable = (", durable" if entry.kind & FUA else "") + (", after a flush" if entry.flushes else "")
    file = files.get(entry.file, entry.file)
    if not isinstance(file, File):
        return f"the names{durable}"
    kind = "size" if entry.file is not file and entry.file is file.place else "bytes"
    known = {file.name, *getattr(file, "known", ())}
    if entry.call is not None and any(quoted(it) in entry.call.told for it in known):
        return f"its {kind}{durable}"
    return f"the {kind} of {quoted(file.name)}{durable}"


def line_of(number, entry, files):
    """The line of an entry: its number, the call, what it is of, who made the call, and its line of calls."""
    call = entry.call
    parts = [] if entry.kind == MARK else [what(entry, files)]
    if call is not None:
        parts = [call.told, *parts]
        thread = f" thread {call.process}" if call.maker and call.maker.process != call.process else ""
        parts += [f"{command(call.maker.words)}, process {call.maker.process}{thread}" if call.maker else f"process {call.process}", f"calls:{call.line}"]
    return f"{number} {'; '.join(parts)[:MOST]}\n"


def entries_text(entries, files):
    """A line for each entry of a log."""
    return "".join(line_of(number, it, files) for number, it in enumerate(entries))
