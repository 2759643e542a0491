"""The log of a recording in memory: what a crash leaves of its files, and which calls its entries came of.

What a crash loses is a set of pairs: the number of an entry, and its fate as crashbpf writes it in a choice, `drop` or a tear. An
entry is lost or torn as a whole, as with `--by write`.
"""
import hashlib
import io
import re
from pathlib import Path

from commands.record import layout, logs, named_layout
from commands.record.disk import FLUSH, FUA, MARK, SECTOR, WRITE
from commands.record.known import SYNCS
from commands.record.orders import Names
from commands.record.told import owners

DROP = "drop"
TEAR = re.compile(r"(head|tail)([1-7])")


def torn(fate, old, new):
    """What a torn write leaves of its sectors."""
    kind, eighths = TEAR.fullmatch(fate).groups()
    kept = len(new) * int(eighths) // 8
    return new[:kept] + old[kept:] if kind == "head" else old[: len(new) - kept] + new[len(new) - kept :]


class Log:
    """The log of a tracing."""

    def __init__(self, tracing):
        self.tracing, self.tree = tracing, tracing.tree
        laid = named_layout.Laid(self.tree)
        self.entries = list(laid.entries())
        self.firsts, self.sectors, self.base = laid.firsts, laid.sectors, laid.image()
        self.map_text = laid.map_text
        self.map = laid.sets, laid.rooms, laid.sectors, list(self.tree.others.values()), laid.modes()
        self.starts = [0 if it.file is None else SECTOR * (laid.firsts[it.file] + it.sector) for it in self.entries]
        self.files = owners(self.tree)
        self.passed, self.flushed = [0], [0]
        for number, it in enumerate(self.entries):
            self.passed.append(self.passed[-1] + (it.kind == MARK))
            self.flushed.append(number + 1 if it.kind == FLUSH else self.flushed[-1])
        self.texts = [it.data for it in self.entries if it.kind == MARK]
        # the device at the last flush that was asked for, since all before it is durable; and what is known of names
        self.held, self.known = (0, self.base), {}

    # What a crash leaves

    def cuts(self):
        return range(len(self.entries) + 1)

    def marks(self, cut):
        """How many marks were passed, and the text of the last one."""
        count = self.passed[cut]
        return count, self.texts[count - 1] if count else b""

    def in_flight(self, cut):
        """The entries that a crash may lose at a cut."""
        return [it for it in range(self.flushed[cut], cut) if self.entries[it].kind == WRITE]

    def put(self, device, first, end, fates):
        """Puts entries onto a device, but for what is lost of them."""
        for number in range(first, end):
            it, start = self.entries[number], self.starts[number]
            fate = fates.get(number)
            if it.kind in (WRITE, FUA) and fate != DROP:
                last = start + len(it.data)
                device[start:last] = it.data if fate is None else torn(fate, bytes(device[start:last]), it.data)

    def image(self, cut, lost=()):
        """The device at a cut."""
        first = self.flushed[cut]
        if self.held[0] != first:
            device = bytearray(self.base)
            self.put(device, 0, first, {})
            self.held = first, bytes(device)
        device = bytearray(self.held[1])
        self.put(device, first, cut, dict(lost))
        return device

    def contents(self, device):
        """The files of an image."""
        return list(named_layout.Image(io.BytesIO(device), self.map, self.known).contents())

    def at(self, cut, lost=()):
        """What the check sees at a cut: the files, with the marks that were passed."""
        return self.seen(self.image(cut, lost), cut)

    def seen(self, device, cut):
        return Seen(self.contents(device), *self.marks(cut))

    # What crashbpf takes

    def stretches(self):
        """Yields what each log for crashbpf has: one has all, where that is no more than a log may have."""
        return logs.split(self.entries, self.firsts, self.base)

    def write(self, folder, stretch):
        """Writes what a log for crashbpf has, and its base, into a folder. Returns crashbpf's words for it."""
        parts, large = layout.log_of([self.entries[it] for it in stretch.numbers], self.firsts, self.sectors)
        log, base = Path(folder, "writes.log"), Path(folder, "base.img")
        log.write_bytes(b"".join(parts))
        base.write_bytes(stretch.base)
        first = ["--from", str(stretch.first)] if stretch.first else []
        return [str(log), "--sectors", str(self.sectors), *(["--large"] if large else []), *first, "--base", str(base), "--by", "write"]

    # Calls

    def origin(self, number):
        """The entry in which that was written first that an entry has: what another sync left in flight is written once more after it."""
        it = self.entries[number]
        if it.kind != WRITE or it.call is not None and it.call.name not in SYNCS:
            return number
        for before in range(number - 1, -1, -1):
            other = self.entries[before]
            if other.kind == WRITE and other.file is it.file and other.data[8:] == it.data[8:] and other.call is not None and other.call.name not in SYNCS:
                if isinstance(it.file, Names) or other.sector <= it.sector < other.sector + other.count or other.sector == it.sector:
                    return before
        return number

    def call(self, number):
        """The call that an entry came of, or nothing where it came of a sync that the program didn't make. Before the first there is none."""
        return self.entries[self.origin(number)].call if number >= 0 else None

    def targets(self, number, need=None):
        """What a sync has to be of so that an entry is durable: files and folders by their numbers, the best first. Where all names are
        one set a sync of a folder has each change durable that stands before the last one in it: so of what was changed later too, up to
        the need."""
        it = self.entries[self.origin(number)]
        if it.file in self.files:
            return [("file", self.files[it.file].number)]
        last = number if need is None or not self.tree.rules.one else need - 1
        changes = [one for one in self.entries[number : last + 1] if one.file is it.file and one.slots and one.kind == WRITE]
        slots = [slot for one in [it, *changes] for slot in reversed(one.slots)]
        return list(dict.fromkeys(("folder", folder) for folder, _ in slots))

    def is_mark(self, number):
        return number >= 0 and self.entries[number].kind == MARK

    def is_names(self, number):
        return isinstance(self.entries[number].file, Names)


class Seen:
    """What the check sees of an image. Images with the same files and as many marks are judged once."""

    def __init__(self, contents, marks, mark):
        self.contents, self.marks, self.mark = contents, marks, mark
        sums = hashlib.sha256(b"%d %d " % (marks, len(contents)))
        for path, kind, content, _ in contents:
            data = content if isinstance(content, bytes) else b"" if content is None else repr(content).encode()
            sums.update(b"%d %d %d " % (len(path), kind, len(data)) + path + data)
        self.key = sums.digest()
