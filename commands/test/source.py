"""A recording that is followed anew: by another table, and with syncs that the program didn't make."""
import io
import os
import re
import tempfile
from dataclasses import dataclass

from commands.record import named_layout, traced
from commands.record.calls import HEX, NAMED, Refused, hexed, unhexed
from commands.record.files import Another, File
from commands.record.mapped import STORE
from commands.record.tracing import PAGE
from commands.record.named import NamedTracing
from commands.record.named_layout import ANOTHER
from commands.record.orders import FOLDER
from commands.record.told import quoted
from commands.shared import recording
from commands.test.lines import PREFIX
from commands.test.log import Log

# What a sync of everything is of.
ALL = ("all", 0)
# The link for which a program in Python asks before a call: its name has the line.
TOLD = re.compile(rf'"{re.escape(hexed(PREFIX))}({HEX})"')


# Calls that begin to write, or wait for it, and make nothing durable.
RANGES = ("sync_file_range", "sync_file_range2")


@dataclass(frozen=True)
class Synced:
    """A sync that the program made: the call, and what it was of, or nothing where that isn't recorded."""

    call: object
    target: object

    def is_durable(self):
        """Whether it makes anything durable."""
        return self.call.name not in RANGES and (self.call.name != "msync" or "MS_SYNC" in self.call.word(2).split("|"))


def place_of(call):
    """Where a sync stands that is right before a call: its line, and whether that is after what was stored up to there."""
    return call.line, call.name != STORE


def tracing_with(syncs, without):
    """Returns a kind of tracing in which syncs stand right before calls: by the place before a call, of what they are. It leaves out the
    syncs that the program made at the lines of `without`."""

    class Cured(NamedTracing):
        def __init__(self, *words):
            super().__init__(*words)
            self.synced, self.opened, self.lines = [], {}, {}
            self.handled.update(dict.fromkeys(RANGES, self.end_range))

        def put_syncs(self, place, call):
            """Puts in the syncs of a place."""
            self.disk.entries.call = None
            for kind, number in syncs.get(place, ()):
                self.tree.end_sync(self.tree.begin_file(self.tree.files[number]) if kind == "file" else self.tree.begin_folder(number))
            self.disk.entries.call = call

        def begin(self, call):
            call.maker = self.process(call).maker
            self.put_syncs((call.line, False), call)
            if self.mapped is not None:
                self.mapped.before(call)
            self.put_syncs((call.line, True), call)
            found = TOLD.search(call.text) if call.name == "readlink" else None
            if found:
                self.lines[call.process] = os.fsdecode(unhexed(found[1]))
            elif call.name == "execve":
                self.lines.pop(call.process, None)
            call.source = self.lines.get(call.process)
            super().begin(call)

        def end_open(self, call, process, flight):
            super().end_open(call, process, flight)
            opened = process.table.get(call.result, (None, False))[0]
            if opened is not None and isinstance(opened.file, File):
                self.opened.setdefault(opened.file.number, call)

        def end_range(self, call, process, _flight):
            """Notes a call that makes nothing durable, for whoever takes it for a sync."""
            opened = process.table.get(call.number(0), (None, False))[0]
            if not call.failed() and opened is not None and isinstance(opened.file, File):
                call.told = f"{call.name}({quoted(opened.file.name)})"
                self.synced.append(Synced(call, ("file", opened.file.number)))

        def end_msync(self, call, process, flight):
            super().end_msync(call, process, flight)
            found = process.space.within(call.number(0), -(-call.number(1) // PAGE) * PAGE)
            if not call.failed() and found:
                call.told = f"msync({quoted(found[0].file.name)}, {call.word(2)})"
                self.synced.append(Synced(call, ("file", found[0].file.number)))

        def begin_sync(self, call, process, flight):
            if call.line in without:
                return
            super().begin_sync(call, process, flight)
            self.synced.append(Synced(call, self.target(call, flight)))

        def target(self, call, flight):
            """What a sync is of."""
            if call.name in ("sync", "syncfs"):
                return ALL if flight.sync is not None else None
            if isinstance(flight.file, File):
                return "file", flight.file.number
            found = NAMED.match(call.word(0))
            path = unhexed(found[2]) if found else b""
            name = b"" if path == self.folder else self.name(path)
            return ("folder", self.folders[name]) if name in self.folders else None

    return Cured


class Source:
    """The folder of a recording. `without` has the lines of syncs that are left out, for a test."""

    without = frozenset()

    def __init__(self, folder):
        self.made = recording.read(folder)
        if self.made.table is None or self.made.map is None:
            raise Refused(f"{folder} wasn't recorded with --files, so names and sizes of files aren't known; crashbpf-each takes it")
        with open(self.made.path(self.made.map)) as file:
            found = named_layout.read_map(file.read())
        with open(self.made.path(self.made.base), "rb") as file:
            contents = list(named_layout.Image(io.BytesIO(file.read()), found).contents())
        self.before = {path: Another(it) if kind == ANOTHER else it for path, kind, it, _ in contents if kind != FOLDER}
        self.folders = [path for path, kind, *_ in contents if kind == FOLDER]
        self.marks = os.path.join(os.path.dirname(self.made.files), traced.MARKS)
        self.calls = self.made.path(traced.CALLS)

    def log(self, table, syncs=(), lines=None):
        """The log by a table, with syncs: pairs of the place before a call and of what is synced there. `lines` are followed in the place
        of those that strace wrote."""
        if lines is not None:
            with tempfile.TemporaryDirectory(prefix="crashbpf-test.") as room:
                calls = os.path.join(room, traced.CALLS)
                with open(calls, "wb") as file:
                    file.writelines(lines)
                return self.followed(calls, table, syncs)
        return self.followed(self.calls, table, syncs)

    def followed(self, calls, table, syncs):
        """The log of these calls."""
        before = {}
        for place, target in sorted(set(syncs)):
            before.setdefault(place, []).append(target)
        made = self.made
        kind = tracing_with(before, self.without)
        tracing = traced.follow_names(calls, made.files, self.before, self.folders, made.skipped, made.at, self.marks, table, made.begun, kind)
        traced.note_modes(tracing, made.path(traced.FILES))
        return Log(tracing)
