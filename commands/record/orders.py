"""What a crash may leave of files with their names and sizes, and the entries of a log that say the same.

On the device of the log are three kinds of places, each with one of its versions in force, the durable one or a later one:

- **Names.** A version says which copy of a set of names is in force; the copies stand on the device from the start. So one write
  changes all names of the set, and a crash leaves them as they were after one of the changes, in the order of these. By `strict` and
  `btrfs` there is a set for each name and those that a rename ties to it, by the other tables one set. Of the changes of such a set those
  alone are in order that have a name in common: a crash leaves some of them, and with each one all that it follows. So a change
  writes all versions that it is the last of, and the one with all changes last.
- **Sizes.** A version is a size of a file, with the first sector of its bytes. Where a file gets shorter it has new sectors for its
  bytes, so what stood there before is as it was where the change is lost. But the blocks that it keeps are the same: what is
  written to them is written to both.
- **Bytes.** Each sector of a file, as in `disk.py`.

What no name and no size shows is lost without a trace. So by `ordered` the bytes of a new block are written as durable right
before the size that shows them: whoever sees the size sees them.

Versions of names and of sizes stand in chains (`named_layout.py`), in which what stands after a lost one doesn't count. So each older
version is left where one write is lost.

Which entries a call makes, a write below being a write entry that is in flight until what makes it durable:

- open with O_CREAT and creat that make a file, mkdir, link, symlink, mknod, bind, rename, unlink, rmdir: a write of a version of the
  names; by `strict` and `btrfs` as many writes as there are versions that the change is the last of.
- write: of the bytes; where they are in a block that the append begins, by `ordered` a FUA write, since no image shows them before
  the size. By `writeback` a write before them of what a new block held, and at last two writes of the bytes of those that had
  the blocks before (`again.py`). Where the size grew, a write of the sector of the size: at each multiple of 4,096 bytes that
  it passed, in a gap too, and at its end.
- ftruncate, truncate to a larger size: a write of the sector of the size.
- fallocate to a larger size: the same, and before it one at each multiple of 4,096 bytes that it reserves.
- ftruncate, truncate, O_TRUNC to a smaller size: zeros are written to the rest of the last block that is kept. Then a write of
  the sector of the size, by which the bytes lie in other sectors from now on. These hold at first what was durable of the part
  that is kept. What is in flight of that part is written there, too. By all tables but `ext4` and `ordered` they hold all of the last
  block, where there was more than zeros, and the zeros are written there as well.
- a write to a block that the file had before it got shorter: where the old size may still be there, the bytes are written to where
  that size shows them, too.
- fallocate that makes a hole, or zeros: a write of the bytes.
- fsync, fdatasync, sync, and a write with O_DSYNC after its own entries: where nothing else is in flight that an image could show,
  a flush. Else FUA writes of what it makes durable, and after these a write of what came later. By `ext4` and `xfs` fsync has the names
  durable up to the last change of the file's own, by `btrfs` the file's own, and fdatasync hasn't. By `strict` and `btrfs` a sync
  of a file that has no name is nothing. A sync of a part has the first size durable that reaches its end, and the names older than that.
- by `ordered` where a part of a file is written back by itself, by a write with O_DSYNC, msync or sync_file_range: of the new blocks before it
  writes of zeros, and then of their bytes.
- by `strict` and `btrfs` a sync of a folder into which a file was renamed from another: of the rename the new name is durable, and that
  the old one is gone is a change by itself from then on.

- by `strict` and `btrfs` where a sync of a file begins: a write of each state of the names that the log of such a sync leaves besides, in which
  the file has its names, and what it isn't synced with may be gone. Then a write of the state with all changes.

Left out are writes that no image shows: to a file without a name, where no crash can bring its name back, and of bytes where none
can bring their size back.

docs/RECORDING.md has the tables with their sources. `tests/models/named_model.py` has the same as plain sets.
"""
import functools
import struct
from collections import deque
from dataclasses import dataclass, field, replace

from commands.record.again import BLOCK, Again
from commands.record.calls import Refused
from commands.record.disk import SECTOR, runs
from commands.record.files import File


@dataclass(frozen=True)
class Rules:
    """What the file systems of a table keep, of what the tables tell apart."""

    # the names of all folders change in one order; else each name has its own
    one: bool = True
    # fsync of a file has its own names durable
    own: bool = False
    # an exchange of two names is no change of the files that have them
    quiet: bool = False
    # the bytes of a new block are there where the size shows them
    filled: bool = False
    # a block that was freed is used again before that is durable, and shows what it held where the new bytes are lost
    again: bool = False
    # where a file gets shorter, the zeros after its new end may be lost: what was cut off is there where it gets longer
    uncut: bool = False


TABLES = {
    "ext4": Rules(own=True),
    "ordered": Rules(filled=True),
    "writeback": Rules(again=True, uncut=True),
    "xfs": Rules(own=True, quiet=True, uncut=True),
    "btrfs": Rules(one=False, own=True, uncut=True),
    "strict": Rules(one=False, uncut=True),
}
# (A file system gives a file whole blocks. Where a write goes on in one that the file has, nothing orders its bytes.)
FILE, FOLDER, OTHER = 1, 2, 3
# The number of the folder of all.
FOLDER_TOP = 0

# How many sizes are tried of those that a file may have between two.
MOST_BETWEEN = 512
# How many changes of names are remembered that may have been made at once with another.
MOST_RECENT = 64
# In how many ways a crash may leave a set of names, by `strict`.
MOST_LEFT = 1024


def up(number, to):
    return -(-number // to) * to


def copy_text(number):
    """What the sector of a set of names holds where this copy is in force."""
    return struct.pack("<Q", number).ljust(SECTOR, b"\0")


@dataclass(eq=False)
class Bytes:
    """Where a file's bytes lie, until it gets shorter: what stands there at first, and how long it gets."""

    number: int
    initial: bytes
    length: int = 0
    # sectors that were laid, and that no sync has made durable since: without the size that shows them they are zeros
    laid: set = field(default_factory=set)
    # how many sectors lie in blocks that it has from the room before; and of how many bytes it has a whole number
    shared: int = 0
    unit: int = SECTOR
    # up to where bytes are written that no size shows, unless the file gets longer
    hidden: int = 0
    # where blocks are used again: the blocks of the disk that it has, by their numbers; those that may be none yet; those that are
    # reserved, and show zeros
    blocks: dict = field(default_factory=dict)
    holes: set = field(default_factory=set)
    unwritten: set = field(default_factory=set)

    @property
    def sectors(self):
        return up(self.length, self.unit) // SECTOR

    @property
    def room(self):
        """How many sectors it takes on the device."""
        return up(max(self.length, self.hidden), self.unit) // SECTOR


@dataclass(eq=False)
class Size:
    """The sector with the size of a file."""

    number: int
    keeps_order = True


@dataclass(eq=False)
class Names:
    """A set of names: all that it was, the slots that it has, and the last version that touches each folder."""

    # whether each version follows the one before it, as by all tables but `strict`; what was there at first; and of each version
    # the slots that it changes, or by `strict` all that is there
    keeps_order: bool = True
    initial: dict = field(default_factory=dict)
    versions: list = field(default_factory=lambda: [{}])
    slots: set = field(default_factory=set)
    touched: dict = field(default_factory=dict)
    # which change of names was the last of these, and the call that made it with the slots that it changed
    turn: int = 0
    told: tuple = (None, ())
    # where names are by themselves: its changes that aren't durable, by a bit for each; the names before these; how many there were; and what a crash
    # may leave, as the changes that are there, with the number of its state
    changes: dict = field(default_factory=dict)
    durable: dict = None
    count: int = 0
    left: dict = field(default_factory=lambda: {0: 0})
    # where names are by themselves: when each of the changes that aren't durable was made; the files and folders that syncs have put into a
    # log with their names, and when the last of these was; and all states that a crash may leave, as sets of pairs
    when: dict = field(default_factory=dict)
    logged: dict = field(default_factory=dict)
    known: set = field(default_factory=set)
    time: int = 0

    def __post_init__(self):
        self.durable = self.versions[0] = self.initial

    def state(self, number):
        """All names that are there by a version."""
        if not self.keeps_order:
            return self.versions[number]
        found = dict(self.initial)
        for it in self.versions[1 : number + 1]:
            found |= it
        return {slot: held for slot, held in found.items() if held is not None}

    def leave(self):
        """Looks for all states that a crash leaves of the changes, where these aren't those that were made."""
        numbers, found = {frozenset(self.versions[number].items()): number for number in self.left.values()}, [0]
        for bit, change in self.changes.items():
            before = self.follows(change, bit)
            found += [it | bit for it in found if it & before == before]
            self.refuse_many(len(found))
        states = {bits: self.after(bits) for bits in found}
        known = {bits: numbers.get(frozenset(state.items())) for bits, state in states.items()}
        self.left = {bits: self.new(states[bits]) if number is None else number for bits, number in known.items()}

    def refuse_many(self, count):
        """Refuses more states than are wanted."""
        if count > MOST_LEFT:
            raise Refused(f"a crash may leave names that renames tie together in more than {MOST_LEFT} ways; that is for the guest")

    def follows(self, slots, before=None):
        """The changes that a change of these slots follows: those with a slot in common, and all that these follow. `before` is the bit
        of one that they stand before."""
        found, slots = 0, set(slots)
        for bit, change in reversed(self.changes.items()):
            if (before is None or bit < before) and not slots.isdisjoint(change):
                found |= bit
                slots |= set(change)
        return found

    def up_to(self, slots):
        """The changes of these slots, and all that they follow."""
        return functools.reduce(lambda found, slot: found | self.follows([slot]), slots, 0)

    def with_all_before(self, bit):
        """A change, and all that it follows; nothing where it is durable."""
        return bit | self.follows(self.changes[bit], bit) if bit in self.changes else 0

    def leaves(self, bits):
        """What the names of these changes hold after them."""
        held, slots = self.after(bits), {slot for bit, change in self.changes.items() if bit & bits for slot in change}
        return {held[it] for it in slots if it in held}

    def after(self, bits):
        """The names after these changes."""
        state = dict(self.durable)
        for bit, change in self.changes.items():
            state |= change if bits & bit else {}
        return {slot: held for slot, held in state.items() if held is not None}

    def add(self, slots):
        """A change of these slots. Yields the number of each state that it is the last change of; last the one with all changes."""
        before, bit = self.follows(slots), 1 << self.count
        more = [it for it in self.left if it & before == before]
        if len(more) > 1:
            self.refuse_many(len(self.left) + len(more))
        self.changes[bit], self.count, self.time = slots, self.count + 1, self.time + 1
        self.when[bit] = self.time
        for bits in more:
            self.left[bits | bit] = self.new(self.after(bits | bit))
            yield self.left[bits | bit]

    def put_back(self, state, logged, now):
        """What names become where a log puts back what is in it, by the names that it has now. Who had one of these goes with it."""
        waiting, put = list(logged), set()
        while waiting:
            put.add(waiting.pop())
            waiting += {state[slot] for slot, held in now.items() if held in put and slot in state} - put
        return {slot: held for slot, held in state.items() if held not in put} | {slot: held for slot, held in now.items() if held in put}

    def log(self, held):
        """A sync puts these into a log with their names."""
        self.time += 1
        self.logged |= dict.fromkeys(held, self.time)

    def beside(self):
        """Looks for the states that a crash leaves besides: a commit has some of the changes and empties the log, which then has what was put
        there since. Returns the number of each new one; last that of the state with all changes."""
        every = self.left[sum(self.changes)]
        now, bits, last, found = self.versions[every], 0, 0, []
        logged = {held: time for held, time in self.logged.items() if held in now.values()}
        for bit in self.changes if logged else ():
            # (the commit was before this change, and after those that the state has)
            until = min((it for it in logged.values() if it > self.when[bit]), default=self.time)
            for start in sorted({it for it in logged.values() if last < it <= until}):
                put = [held for held, time in logged.items() if time >= start]
                state = self.put_back(self.versions[self.left[bits]], put, now)
                is_known = frozenset(state.items()) in self.known or state == self.versions[self.left[0]]
                found += [] if is_known else [self.new(state)]
            bits, last = bits | bit, self.when[bit]
        return [*found, every] if found else []

    def new(self, state):
        """Returns the number of a state that wasn't left."""
        self.known.add(frozenset(state.items()))
        self.versions.append(state)
        return len(self.versions) - 1

    def moved_into(self, folder, bits):
        """Of some changes those that moved files into this folder from another one, each with the names that it took there, unless another of
        these changes is of such a name, too."""
        found = {}
        for bit, change in self.changes.items():
            gone = {slot: None for slot, held in change.items() if held is None and slot[0] != folder}
            comes = any(held is not None and held[0] != FOLDER and slot[0] == folder for slot, held in change.items())
            again = any(other & bits and other > bit and not gone.keys().isdisjoint(later) for other, later in self.changes.items())
            if bit & bits and comes and not again:
                found[bit] = gone
        return found

    def settle(self, bits, kept):
        """These changes are durable, but for the slots that are `kept` of some: these are a change by themselves then. Returns the numbers of
        the states that are left: first the durable one, last the one with all changes; or nothing where none of them is new."""
        bits &= sum(self.changes)
        if not bits:
            return None
        kept = {bit: gone for bit, gone in kept.items() if bit & bits and gone}
        changes = {bit: kept.get(bit, change) for bit, change in self.changes.items() if not bit & bits or bit in kept}
        self.changes = {bit: {slot: held for slot, held in change.items() if slot not in kept.get(bit, ())} for bit, change in self.changes.items()}
        self.durable = self.after(bits)
        self.left = {it & ~bits: number for it, number in self.left.items() if it & bits == bits}
        self.changes = changes
        if kept:
            self.leave()
        every = sum(self.changes)
        self.known = {frozenset(self.versions[number].items()) for number in self.left.values()}
        return [*(self.left[it] for it in sorted(self.left, key=lambda it: (it != 0, it == every))), *self.beside()]


@dataclass(frozen=True)
class Past:
    """A change of names that was made: which one it was, the version and the set that it made, what its slots held before and after it,
    the folders that these are in, and who made it. `beside` says whether others were made at once with it."""

    turn: int
    version: int
    names: Names
    before: dict
    slots: dict
    folders: frozenset
    call: object
    beside: bool

    def meets(self, other):
        """Whether two changes have a name, or what a name is of, in common, so that their order counts."""
        things, others = ({it for held in (past.before, past.slots) for it in held.values() if it} for past in (self, other))
        links = any(kind == OTHER for kind, _ in things | others)
        inside = any((FOLDER, it) in others for it in self.folders) or any((FOLDER, it) in things for it in other.folders)
        return links or inside or not things.isdisjoint(others) or not self.slots.keys().isdisjoint(other.slots)


@dataclass(frozen=True)
class End:
    """A size of a file that its file system may have written down: which of the file's sizes it is, and the version of the names when the
    file system may have done so first."""

    size: int
    number: int
    stamp: int


@dataclass
class Begun:
    """What a sync that has begun will make durable: versions of sectors by their places; sectors that were laid, each with its room; where
    names are by themselves, changes of each set; and the sizes of files."""

    places: dict = field(default_factory=dict)
    laid: list = field(default_factory=list)
    changes: dict = field(default_factory=dict)
    ends: dict = field(default_factory=dict)
    # of a folder: by the sets of `changes` the renames into it, with the names that they took in other folders
    kept: dict = field(default_factory=dict)


class Named(File):
    """A file with its names, its size and its bytes."""

    def __init__(self, number, name, content=b""):
        super().__init__(name, content)
        self.number, self.rooms, self.place = number, [Bytes(0, content, len(content))], Size(number)
        # up to where it has blocks; the version of the names when its size changed last; how many names it has, and had
        self.blocks, self.stamp, self.names, self.known = len(content), 0, 0, {name}
        # the sizes that the file system may have written down: one that it has, and what writes made of it since, each larger
        self.ends = [End(len(content), 0, 0)]
        # the slots that hold it
        self.slots = set()
        # the names that it had and lost
        self.left = set()
        # the path that it had first
        self.first = None
        # the version of the names when one of its own changed last, and the first that has none of them
        self.named = self.lost = 0
        # the sets that have had a name of it, how many sizes it had, and the first of the rooms that a crash may still show
        self.sets, self.sizes, self.oldest = set(), 0, 0

    def is_called(self, path):
        """It has this path now."""
        self.name, self.first = path, path if self.first is None else self.first
        self.known.add(path)

    def size_text(self, size):
        """What stands for one more size of the file: this, where its bytes lie, and which of its sizes it is."""
        self.sizes += 1
        return struct.pack("<QQQ", size, len(self.rooms) - 1, self.sizes).ljust(SECTOR, b"\0")


class Tree:
    """The folders of a recording, and the entries that say what became of them. Slots are pairs of a folder's number and a name.

    `joined` says for each slot with which others it makes a set, where the table is `strict`. It is known only when all has
    been followed once: `ties` has it then."""

    def __init__(self, table, disk, joined=None):
        self.table, self.rules, self.disk, self.joined = table, TABLES[table], disk, joined
        self.one = Names() if self.rules.one or joined is None else None
        self.again = Again(self) if self.rules.again else None
        self.sets, self.parents = {}, {}
        # how many changes of names there were; the sets with changes that aren't durable; the rooms with sectors that were laid; and
        # the files of which no crash may show some bytes that aren't durable
        self.turn, self.moving, self.laying, self.suspects = 0, {}, {}, {}
        # how many folders there were, and the path that each had first
        self.folders, self.called, self.files, self.now = 1, {0: b""}, {}, {}
        # what is neither file nor folder, by its number; and the folder that each folder is in
        self.others, self.above = {}, {}
        # by tables in which names are by themselves: of each folder that was made the set, and the bit of the change
        self.made = {}
        # the calls of which some sizes between aren't tried, by their ids
        self.skipping = {}
        # which permissions files and folders had last, by pairs of a kind and a number
        self.modes = {}
        # the last changes; the call that makes the next one, and the changes that were made at once with that; and of each change with
        # such others the first version of these, and its own first and last
        self.recent, self.call, self.beside, self.groups = deque(maxlen=MOST_RECENT), None, [], []
        # the last version of the names when the call that changes a file began, or nothing where it began now
        self.began = None

    # What stands there now

    def inside(self, folder):
        return {name: it for (number, name), it in self.now.items() if number == folder}

    def below(self):
        """Yields what there is: paths with what they are of."""
        inner = {}
        for (folder, name), it in self.now.items():
            inner.setdefault(folder, []).append((name, it))
        waiting = [(b"", 0)]
        while waiting:
            path, number = waiting.pop()
            for name, (kind, inside) in inner.get(number, ()):
                below = path + b"/" + name if path else name
                waiting += [(below, inside)] if kind == FOLDER else []
                yield below, (kind, inside)

    def paths(self):
        """The files by their paths, and the folders by theirs."""
        found = dict(self.below())
        files = {path: self.files[number] for path, (kind, number) in found.items() if kind == FILE}
        return files, {b"": 0, **{path: number for path, (kind, number) in found.items() if kind == FOLDER}}

    # Sets of names

    def tie(self, *slots):
        """These slots change at once."""
        for it in slots[1:]:
            self.parents[self.top(it)] = self.top(slots[0])

    def top(self, slot):
        while self.parents.get(slot, slot) != slot:
            slot = self.parents[slot]
        return slot

    def ties(self):
        """For each slot the one that stands for its set."""
        return {it: self.top(it) for it in self.parents}

    def set_of(self, slot):
        """Returns the set of names that a name belongs to, with the name in it."""
        if self.one is not None:
            found = self.one
        else:
            top = self.joined.get(slot, slot)
            found = self.sets.get(top) or self.sets.setdefault(top, Names(False))
        found.slots.add(slot)
        return found

    def all_sets(self):
        return [self.one] if self.one is not None else list(self.sets.values())

    def version(self, names):
        """The number of the last version of a set."""
        found = self.disk.sectors.get(names)
        return found[0].newest if found else 0

    def change(self, slots, made=None, is_own=True):
        """Slots change, to what they hold now or to nothing. `made` is the number of a folder that is new. With `is_own` it is a change of the
        files that had or have these names, which their fsync may have durable."""
        sets = {self.set_of(it) for it in slots}
        assert len(sets) == 1
        before = {slot: self.now.get(slot) for slot in slots}
        changed = [it for slot in slots for it in (before[slot], slots[slot]) if it is not None]
        for slot, it in slots.items():
            self.count(slot, self.now.pop(slot, None), -1)
        for slot, it in slots.items():
            self.count(slot, it, 1)
            self.now |= {} if it is None else {slot: it}
            self.above |= {it[1]: slot[0]} if it is not None and it[0] == FOLDER else {}
        names, self.turn = sets.pop(), self.turn + 1
        names.turn = self.turn
        names.told = self.disk.entries.call, tuple(slots)
        for kind, number in changed:
            if kind == FILE:
                self.files[number].sets.add(names)
        self.disk.entries.slots = tuple(slots)
        if self.one is None:
            self.moving[names] = None
            for number in names.add(slots):
                self.disk.write(names, 0, copy_text(number))
            self.made |= {made: (names, max(names.changes))} if made is not None else {}
        else:
            self.follow(names, slots, made, changed, is_own)
        self.disk.entries.slots = ()
        self.recent.append(self.past(names, before, slots))
        self.beside = []
        for kind, number in changed:
            if kind == FILE:
                self.suspect(self.files[number])
                if self.again and not self.files[number].names:
                    self.again.freed(self.files[number])

    def past(self, names, before, slots):
        """A change as it is remembered."""
        return Past(self.turn, self.version(names), names, before, slots, self.folders_of(slots), self.call, bool(self.beside))

    def folders_of(self, slots):
        """The folders that slots are in, and those that these are in."""
        found = {FOLDER_TOP}
        for folder, _ in slots:
            while folder not in found:
                found.add(folder)
                folder = self.above.get(folder, FOLDER_TOP)
        return frozenset(found)

    def durable_names(self):
        """The last version of the one set of names that is durable."""
        it = self.disk.sectors.get(self.one, {}).get(0)
        return it.durable if it is not None else 0

    def follow(self, names, slots, made, changed, is_own):
        """Writes the version of a set that follows the one before it. Where others were made at once with it, a crash may leave it with
        the first of these, for each number of them, and so as many versions are written: first it alone."""
        undone = {slot: held for it in reversed(self.beside) for slot, held in it.before.items()}
        first = len(names.versions)
        for change in [{**undone, **slots}, *(it.slots for it in self.beside)]:
            names.versions.append(change)
            self.disk.write(names, 0, copy_text(len(names.versions) - 1))
        last, folders = len(names.versions) - 1, {folder for folder, _ in slots}
        touched = dict.fromkeys(folders | ({made} if made is not None and self.rules.one else set()), first)
        for folder in folders & {folder for it in self.beside for folder, _ in it.slots}:
            touched[folder] = last
        names.touched.update(touched)
        for kind, number in changed:
            if kind == FILE:
                file = self.files[number]
                file.named, file.lost = first if is_own else file.named, 0 if file.names else last
        if self.beside:
            self.groups.append((self.beside[0].version, first, last))
        for kind, number in (held for it in self.beside for held in it.before.values() if held):
            if kind == FILE and not self.files[number].names:
                self.files[number].lost = last

    def settle(self, names, bits, kept):
        """Changes of a set are durable, by `strict`, but for the slots that are kept of some. Returns the version of its sector that is, or
        nothing where none is new."""
        left = names.settle(bits, kept)
        if not names.changes:
            self.moving.pop(names, None)
        if left is None:
            return None
        # (all that is left has been written, and so it is again what was written since)
        it = self.disk.sectors[names][0]
        it.since = [copy_text(number) for number in left]
        return it.durable + 1

    def count(self, slot, held, by):
        """A slot holds this from now on, or no more."""
        if held is not None and held[0] == FILE:
            file = self.files[held[1]]
            file.names += by
            file.slots ^= {slot}

    # Changes of names

    def begin(self, slot, content=None):
        """What stands there before anything is recorded: a file with this content, or a folder."""
        if content is None:
            self.now[slot] = FOLDER, self.new_folder(slot)
            self.above[self.now[slot][1]] = slot[0]
        else:
            file = self.new_file(slot[1], content)
            self.now[slot] = FILE, file.number
            self.count(slot, self.now[slot], 1)
        names = self.set_of(slot)
        names.initial[slot] = self.now[slot]
        if content is not None:
            file.sets.add(names)
        return self.now[slot][1]

    def begin_other(self, slot, held):
        """Something stands there that is no folder, and no file that has no other name: what it holds is given."""
        self.now[slot] = held
        self.count(slot, held, 1)
        names = self.set_of(slot)
        names.initial[slot] = held
        if held[0] == FILE:
            self.files[held[1]].sets.add(names)

    def new_other(self, other):
        """What a name holds that is of this."""
        number = len(self.others)
        self.others[number] = other
        return OTHER, number

    def new_file(self, name, content=b""):
        """A file that has no name yet, with what it holds durably."""
        file = Named(len(self.files), name, content)
        file.rooms[0].unit = BLOCK if self.disk.pages else SECTOR
        self.files[file.number] = file
        if self.again:
            self.again.begin(file)
        return file

    def make_file(self, slot):
        """Makes a file of a new name, and returns it."""
        file = self.new_file(slot[1])
        self.change({slot: (FILE, file.number)})
        file.stamp = file.named if self.rules.one else 0
        file.ends = [End(0, 0, file.stamp)]
        return file

    def bring_file(self, slot, content):
        """A file with this content, all of it durable, gets a name here. Returns it."""
        file = self.new_file(slot[1], content)
        self.change({slot: (FILE, file.number)})
        return file

    def path_of(self, slot):
        """The path that a slot had first."""
        folder, name = slot
        return self.called[folder] + b"/" + name if folder else name

    def new_folder(self, slot):
        number, self.folders = self.folders, self.folders + 1
        self.called[number] = self.path_of(slot)
        return number

    def make_folder(self, slot):
        number = self.new_folder(slot)
        self.change({slot: (FOLDER, number)}, made=number)
        return number

    def remove(self, slot):
        self.change({slot: None})

    def rename(self, slot, to, exchange=False):
        self.tie(slot, to)
        if slot != to:
            self.change({slot: self.now[to] if exchange else None, to: self.now[slot]}, is_own=not (exchange and self.rules.quiet))

    def link(self, slot, to):
        self.change({to: self.now[slot]})

    def make_other(self, slot, other):
        self.change({slot: self.new_other(other)})

    # Bytes and sizes

    def write(self, file, start, data, through=False, is_direct=False):
        """Bytes are written to a file. `through` has them durable when the call ends, and direct ones are written past the page cache."""
        old, room, border = file.size, file.rooms[-1], up(max(file.blocks, file.size), BLOCK) // SECTOR
        first, sectors = self.disk.whole_pages(file.content, *file.put(start, data), is_direct)
        # (of a new block the rest isn't durable by this write)
        own = range(first, first + len(sectors) // SECTOR)
        file.blocks, room.length = max(file.blocks, file.size), max(room.length, file.size)
        if self.again:
            first, sectors = self.write_blocks(file, first, sectors)
        sizes = self.reached(file, old, start)
        if not self.shown(file):
            self.sized(file, sizes)
            self.show_blocks(file, first, len(sectors) // SECTOR)
            return
        self.suspect(file)
        known = min(max(border - first, 0), len(sectors) // SECTOR) if self.rules.filled else len(sectors) // SECTOR
        if known:
            self.put(file, first, sectors[: SECTOR * known], is_direct)
        if sectors[SECTOR * known :]:
            self.disk.lay(room, first + known, sectors[SECTOR * known :])
            room.laid |= set(range(first + known, first + len(sectors) // SECTOR))
            self.laying[room] = None
        self.sized(file, sizes)
        self.show_blocks(file, first, len(sectors) // SECTOR)
        if through:
            self.write_out(file, own[0])
            self.end_sync(self.begin_range(file, own, start + len(data)))

    def write_out(self, file, first):
        """A part of a file, from a sector on, is written back by itself. Where blocks are given late, what stands before it may have none yet, and
        shows zeros with the size that the part gives the file."""
        room, until = file.rooms[-1], first * SECTOR // BLOCK * (BLOCK // SECTOR)
        bare = {number for number in room.laid if number < until} if self.rules.filled and self.shown(file) else ()
        content = {number: bytes(file.content[SECTOR * number :][:SECTOR]) for number in bare}
        for found in ({number: bytes(SECTOR) for number in bare}, content) if bare else ():
            for _, number, data in runs({room: found}):
                self.put(file, number, data)
        room.laid.difference_update(bare)

    def write_blocks(self, file, first, sectors):
        """Sectors are written where blocks are used again: of new blocks all, and what these held before comes first. Returns the first
        sector, and the bytes of all that are written."""
        room = file.rooms[-1]
        first, count, stale = self.again.written(file, first, len(sectors) // SECTOR)
        room.length = max(room.length, SECTOR * (first + count))
        if stale and self.shown(file):
            for _, block, data in runs({room: stale}):
                self.put(file, BLOCK // SECTOR * block, data)
        return first, bytes(file.content[SECTOR * first :][: SECTOR * count]).ljust(SECTOR * count, b"\0")

    def show_blocks(self, file, first, count):
        """Where blocks are used again those that had the blocks of these sectors may show them."""
        if self.again:
            self.again.used(file, first, count)

    def put(self, file, first, data, is_direct=False):
        """Whole sectors of a file are written."""
        self.spread(file, len(file.rooms) - 1, first, data, is_direct)

    def spread(self, file, index, first, data, is_direct=False):
        """Whole sectors of a room of a file are written. Where they lie in blocks that it had before it got shorter, a crash may leave
        them there with the size of that time too."""
        self.disk.write(file.rooms[index], first, data, is_direct)
        limit = file.rooms[index].shared
        for number in range(index - 1, self.oldest_room(file) - 1, -1):
            room = file.rooms[number]
            count = min(limit, room.sectors) - first
            if count > 0:
                self.disk.write(room, first, data[: SECTOR * count], is_direct)
            limit = min(limit, room.shared)

    def reached(self, file, old, start):
        """The sizes that a crash may leave of a file that a write at some place made longer: at the end of each of its blocks, since what is
        written back first may be any of these, and its own."""
        if file.size <= old:
            return []
        return [*self.between(old, start + 1), *range(up(max(old, start) + 1, BLOCK), file.size, BLOCK), file.size]

    def between(self, first, last):
        """The ends of blocks that lie after one place and before another; of many some."""
        found = range(up(first + 1, BLOCK), last, BLOCK)
        if len(found) > MOST_BETWEEN:
            self.skipping[id(self.disk.entries.call)] = self.disk.entries.call
        return found[:: -(-len(found) // MOST_BETWEEN) or 1]

    def sized(self, file, sizes):
        """A file has these sizes, one after the other. Which names a sync of it has to make durable then is noted, also where no crash shows
        the file."""
        if not sizes:
            return
        # (which of the names that changed meanwhile were first isn't known)
        now = (self.version(self.one) if self.began is None else self.began) if self.rules.one else 0
        file.stamp, is_shown = max(now, file.stamp), self.shown(file)
        for it in sizes:
            if is_shown:
                self.disk.write(file.place, 0, file.size_text(it))
            file.ends.append(End(it, file.sizes, now))

    def resize(self, file, size, between=()):
        """A file gets longer or shorter. Its file system writes that down at once, unless that is the size that it has written down; `between`
        has those that it writes down before."""
        known = next((it for it in file.ends if it.size == size), None)
        if size < file.size:
            self.shorten(file, size)
        else:
            file.grow(size)
        file.rooms[-1].length = max(file.rooms[-1].length, size)
        self.suspect(file)
        self.sized(file, [*between, size])
        file.ends = [replace(file.ends[-1], stamp=known.stamp) if known else file.ends[-1]]

    def allocate(self, file, start, size):
        """A file gets blocks from a place up to a larger size, and this size. A file system reserves them by pieces."""
        self.resize(file, size, self.between(max(file.size, start), size))

    def shorten(self, file, size):
        """A file gets new sectors for its bytes, which hold what it keeps. Of the last block that it keeps the rest becomes zeros."""
        if self.again:
            self.again.freed(file, up(size, BLOCK) // BLOCK)
        old, until = file.rooms[-1], up(size, BLOCK)
        whole = self.rules.uncut and self.has_more(old, size)
        initial, later = self.kept(old, size, whole)
        self.put_zeros(file, size, old.sectors)
        file.changed.append((size // SECTOR, -(-file.size // SECTOR)))
        file.content[size:] = bytes(len(file.content) - size)
        file.size, file.grown, file.blocks = size, file.grown + 1, size
        file.rooms.append(Bytes(len(file.rooms), initial, size, shared=until // SECTOR, unit=old.unit, hidden=until if whole else 0))
        if self.again:
            self.again.moved(file)
        if self.shown(file):
            for turn in sorted(later):
                one_by_one = ((None, *it) for it in later[turn])
                for _, number, content in runs({None: dict(later[turn])}) if self.disk.pages or turn[0] else one_by_one:
                    self.disk.write(file.rooms[-1], number, content, True)
        if whole and self.shown(file):
            start = size // old.unit * old.unit
            self.disk.write(file.rooms[-1], start // SECTOR, bytes(file.content[start:size]).ljust(until - start, b"\0"))

    def last_sectors(self, room, size):
        """Of a room that gets a smaller size: the sectors of the last block that it keeps, from this size on, with their versions; by pages all."""
        found, first = self.disk.sectors.get(room, {}), size // room.unit * room.unit // SECTOR
        return {number: self.versions(room, found.get(number), number) for number in range(first, up(size, BLOCK) // SECTOR)}

    def has_more(self, room, size):
        """Whether the last block that a room keeps, of a smaller size, may hold more than zeros after it."""
        return any(it[max(size - SECTOR * number, 0) :].strip(b"\0") for number, these in self.last_sectors(room, size).items() for it in these)

    def kept(self, old, size, whole):
        """What the sectors of a room hold that a file keeps where it gets shorter: what is durable, and what comes then, by its turn. With `whole`
        that is all of each version of the last block, and then what is kept of those before the last."""
        initial, later, found = b"", {}, self.disk.sectors.get(old, {})
        last = self.last_sectors(old, size) if whole else {}
        for number in range(max([up(size, SECTOR) // SECTOR, *(it + 1 for it in last)])):
            versions = self.versions(old, found.get(number), number)
            cut = [it[: max(size - SECTOR * number, 0)].ljust(SECTOR, b"\0") for it in versions]
            first, *since = last.get(number, cut)
            turns = [-1, *self.disk.turns_of(old, number, len(since))]
            initial += first.ljust(SECTOR, b"\0")
            again = zip(turns, cut[:-1]) if number in last else ()
            for turn, content in [*(((0, it), content) for it, content in zip(turns[1:], since)), *(((1, it), content) for it, content in again)]:
                later.setdefault(turn, []).append((number, content))
        return initial, later

    def put_zeros(self, file, size, sectors):
        """The rest of a file's last block becomes zeros, where it had as many sectors."""
        unit = file.rooms[-1].unit
        step = unit // SECTOR
        for number in range(size // unit * step, min(up(size, BLOCK) // SECTOR, sectors), step) if self.shown(file) else ():
            self.put(file, number, bytes(file.content[SECTOR * number : max(size, SECTOR * number)]).ljust(unit, b"\0"))

    def versions(self, room, it, number):
        """The versions that a crash may leave of a sector of a file, where nothing is said of its size."""
        initial = room.initial[SECTOR * number :][:SECTOR].ljust(SECTOR, b"\0")
        held = initial if it is None or it.held is None else it.held
        return [*([bytes(SECTOR)] if number in room.laid else []), held, *(it.since if it else ())]

    def reserve(self, file, start, end):
        """A file has blocks from here to there."""
        file.blocks, room = max(file.blocks, end), file.rooms[-1]
        room.unwritten |= set(range(start // BLOCK, up(end, BLOCK) // BLOCK)) - room.blocks.keys() if self.again else set()

    # What a crash may still show

    def held(self, place, first):
        """The versions that a crash may leave of the only sector of a place, of which `first` stood there at the beginning."""
        it = self.disk.sectors.get(place, {}).get(0)
        return [first] if it is None else [first if it.held is None else it.held, *it.since]

    def shown(self, file):
        """Whether a crash may leave a name of a file."""
        if file.names > 0:
            return True
        if self.one is not None:
            found = self.disk.sectors.get(self.one)
            return (found[0].durable if found else 0) < file.lost
        return any((FILE, file.number) in it.versions[number].values() for it in file.sets for number in it.left.values())

    def oldest_room(self, file):
        """The number of the first room that a crash may show of a file: it is that of its durable size, and all later ones may be."""
        if file.oldest < len(file.rooms) - 1:
            it = self.disk.sectors.get(file.place, {}).get(0)
            return struct.unpack_from("<8xQ", it.held)[0] if it is not None and it.held is not None else 0
        return file.oldest

    def unseen(self, file):
        """The places of a file that no crash shows any more, whatever becomes of them."""
        if not self.shown(file):
            return [*file.rooms[file.oldest :], file.place]
        return file.rooms[file.oldest : self.oldest_room(file)]

    # Syncs

    def begin_file(self, file, data=False):
        """A sync of a file begins, with `data` one that does no more than fdatasync. Returns what it will make durable."""
        own, last = self.rules.own and not data, file.ends[-1]
        return self.begin_bytes(file, last, max(file.stamp, file.named) if own else last.stamp, own)

    def begin_range(self, file, sectors, until):
        """A sync of some sectors of a file begins, that has its size durable as far as one place. Of the sizes that the file system may have
        written down the first that is as large is durable then, and with it the names that are surely older."""
        end = next((it for it in file.ends if it.size >= until), file.ends[-1])
        begun = self.begin_bytes(file, end, end.stamp)
        room = file.rooms[-1]
        if room in begun.places:
            begun.places[room] = {number: it for number, it in begun.places[room].items() if number in sectors}
        return replace(begun, laid=[it for it in begun.laid if it[1] in sectors])

    def begin_bytes(self, file, end, stamp, own=False):
        """A sync of a file begins that has one of its sizes durable, and all names up to a version. `own` has those of the file durable where
        names are by themselves."""
        room = file.rooms[-1]
        if self.one is None:
            self.log_names(file)
            if not file.names:
                # (btrfs logs no file without a name, and a crash may bring its names back with what was durable before)
                return Begun()
        found = self.disk.begin_sync([room, file.place])
        found[file.place] = {number: min(it, end.number) for number, it in found[file.place].items()}
        if self.rules.one and stamp:
            found[self.one] = {0: stamp}
        return Begun(found, [(room, it) for it in room.laid], self.own_names(file) if own and self.one is None else {}, {file: end})

    def names_with(self, file):
        """Where names are by themselves: of each set with names of a file, or of the folders that were made for these, which of these it has,
        and the changes that gave them the names that they have, with all that they follow."""
        found, bits = {}, {}
        for slot in file.slots:
            names = self.set_of(slot)
            found.setdefault(names, set()).add((FILE, file.number))
            bits[names] = bits.get(names, 0) | names.up_to([slot])
        for folder in self.folders_of(file.slots) & self.made.keys():
            names, bit = self.made[folder]
            found.setdefault(names, set()).add((FOLDER, folder))
            bits[names] = bits.get(names, 0) | names.with_all_before(bit)
        return {names: (found[names], its) for names, its in bits.items()}

    def own_names(self, file):
        """The changes that gave a file the names that it has, and those that made the folders that these are in, with all that they follow.
        Where these leave a name of something else, none of the set: a file that was moved away may be gone."""
        return {names: its for names, (held, its) in self.names_with(file).items() if names.leaves(its) <= held}

    def log_names(self, file):
        """A sync of a file begins where names are by themselves. It puts the file into a log with its names, and no other file whose names these
        follow. So a crash leaves them alone, too: what isn't durable of the others may be gone."""
        for names, (held, _) in self.names_with(file).items():
            names.log(held)
        entries, call = self.disk.entries, self.disk.entries.call
        for names in [it for it in self.moving if it.logged]:
            # (what a crash leaves so lacks changes that were made before the sync, and is told as their last one)
            entries.call, entries.slots = names.told
            for number in names.beside():
                self.disk.write(names, 0, copy_text(number))
        entries.call, entries.slots = call, ()

    def begin_folder(self, folder):
        """A sync of a folder begins."""
        if self.one is None:
            changes = {it: it.up_to([slot for slot in it.slots if slot[0] == folder]) for it in self.moving}
            # (its log has the names that it has, and not what others lost)
            return Begun(changes=changes, kept={it: it.moved_into(folder, bits) for it, bits in changes.items()})
        return Begun({it: {0: it.touched[folder]} for it in self.all_sets() if folder in it.touched})

    def begin_all(self):
        """Returns what a sync of everything covers as it begins."""
        sets = list(self.moving) if self.one is None else []
        found = self.disk.begin_sync([it for it in self.disk.unsure if not isinstance(it, Names) or it is self.one])
        laid = [(room, it) for room in self.laying for it in room.laid]
        return Begun(found, laid, {it: sum(it.changes) for it in sets}, {it: it.ends[-1] for it in self.files.values()})

    def end_sync(self, begun):
        """The sync has ended. What nobody will see is left as it is, and keeps no flush away."""
        versions = {names: self.settle(names, bits, begun.kept.get(names, {})) for names, bits in begun.changes.items()}
        places = {**begun.places, **{names: {0: version} for names, version in versions.items() if version is not None}}
        for room, number in begun.laid:
            room.laid.discard(number)
        for room in {room for room, _ in begun.laid if not room.laid}:
            self.laying.pop(room, None)
        for file, end in begun.ends.items():
            # (it is there no more where the file got another size at once)
            file.ends = file.ends[file.ends.index(end) :] if end in file.ends else file.ends
        if self.one in places:
            places = {**places, self.one: {0: self.settle_beside(places[self.one][0])}}
        gone = self.gone_with(places)
        for place in gone:
            self.disk.unsure.pop(place, None)
        self.disk.end_sync({place: it for place, it in places.items() if place not in gone})
        if self.one is not None:
            self.one.keeps_order = True
        self.suspects = {number: None for number in self.suspects if self.is_suspect(self.files[number])}

    def suspect(self, file):
        """Bytes of a file, or its size, change, and perhaps no crash shows them."""
        if not file.names or len(file.rooms) > 1:
            self.suspects[file.number] = None

    def settle_beside(self, version):
        """A version of the names will be durable. Where it is one of some that were made at once with another, no crash leaves that other
        with fewer of them any more: what has them stands in the place of the versions that haven't. Returns the version."""
        it = self.disk.sectors.get(self.one, {}).get(0)
        for others, first, last in self.groups if it is not None else ():
            # (as many of the others are durable then)
            durable = version - others + 1
            if not others <= version < first or last - first < durable:
                continue
            if it.durable >= first:
                return max(version, first + durable)
            if version > it.durable:
                for number in range(first, first + durable):
                    it.since[number - it.durable - 1] = copy_text(first + durable)
                self.one.keeps_order = False
        return version

    def is_suspect(self, file):
        """Whether some bytes of a file, or its size, aren't durable, and perhaps no crash shows them."""
        file.oldest = self.oldest_room(file)
        places = (*file.rooms[file.oldest :], file.place)
        return (not file.names or len(places) > 2) and any(it in self.disk.unsure for it in places)

    def gone_with(self, places):
        """The places that nobody will see once this is durable."""
        kept = []
        for place, versions in places.items():
            for number, version in versions.items() if isinstance(place, (Names, Size)) else ():
                it = self.disk.sectors[place][number]
                kept.append((it, it.durable, it.since, it.held))
                it.settle(version)
        gone = {place for number in self.suspects for place in self.unseen(self.files[number])}
        for it, it.durable, it.since, it.held in kept:
            pass
        return gone
