"""Where files with names and sizes lie on the device of a log, the map of it, and the files of an image.

The device has in this order: a chain for each set of names, and one for the size of each file; the bytes of the files, as in
`layout.py`; and copies of sets of names. Numbers are little-endian.

- A chain has the versions of one thing in their order: its first sector, one for each change, and one that is free. Bytes 0 to 7 of
  the first sector are how many changes it stands for, and of the sector of change n they are n once that is there. The version in
  force is that of the last sector of a row without a gap, which begins with the one after the changes that the first sector stands
  for. So what stands after a change that was lost doesn't count, and each earlier version is left where one change is lost.
- Of a set of names the names have places, numbered from 1 in their order. What is held by one are two numbers of four bytes: 0
  where it isn't taken, 1 for a file, 2 for a folder, 3 for what else there is; then the first sector of the chain of the file's
  size, or the number of the folder or of the other thing. The folder $FILES is 0. Bytes 8 to 15 of a sector of the chain are the first sector of a copy, from which all names
  are to be taken, or 0. Then four times the place of a name, four bytes, and what it holds from then on; a place of 0 says nothing.
  The first sector of a chain has a copy. By `strict` there is a set for each name and those that a rename ties to it, by the other
  tables one for all.
- A copy has what each name of its set holds, by their places. Copies are there from the start, and are never written.
- Of a file bytes 8 to 15 are its size, bytes 16 to 23 the first sector of its bytes.
- Bytes: a range for each file, and one more for each time that it gets shorter. After it a sector is free. A range of eight sectors
  and more begins at a multiple of eight, and a shorter one doesn't go over such a multiple.

The names themselves stand in the map alone, and so does what is neither file nor folder: a symbolic link with its text, one of
which the text is of a path in $FILES, a FIFO, a socket. It has the permissions that files and folders had last, too.
"""
import hashlib
import os
import re
import stat
import struct
from dataclasses import dataclass, field, replace

from commands.record import layout
from commands.record.calls import Refused, shown
from commands.record.disk import FLUSH, FUA, SECTOR, WRITE
from commands.record.layout import ALIGNED, escaped, unescaped
from commands.record.files import Other
from commands.record.orders import FILE, FOLDER, OTHER, TABLES, Names, Size, up

HEAD = "crashbpf files 4"
# What a sector of a chain has: its number, and what the version says. Of names that is a copy, and which names change.
LINK = struct.Struct("<QQQ")
NAMES_LINK = struct.Struct("<QQ12I")
# How many names a sector of a chain changes: its first 64 bytes alone change, which no tear goes through.
MOST = 4
# After a flush a chain of more changes begins anew, so that no image has a long one.
LONG = 32
# What a name is of: the kind, and the sector of a file's size or the number of the folder.
HELD = struct.Struct("<II")
EACH = SECTOR // HELD.size


@dataclass(frozen=True)
class Set:
    """A set of names on the device: the first sector of its chain, how many changes it has, and its names, each with its folder."""

    sector: int
    changes: int
    slots: tuple


@dataclass(frozen=True)
class Room:
    """Where bytes of a file may lie: the first sector of the chain of its size, how many changes that has, the first sector of the
    bytes, the number of their sectors, and the file's name."""

    size: int
    changes: int
    first: int
    sectors: int
    name: bytes


@dataclass
class Chain:
    """A chain as the entries make it: how many sectors it has, which of these the first one stands for, and up to which they are
    durable; what each sector says, and in which one a version stands."""

    passed: int = 0
    begun: int = 0
    durable: int = 0
    said: dict = field(default_factory=dict)
    places: dict = field(default_factory=dict)
    # the version that is in force where nothing is lost, and of names all that are there by it
    version: int = 0
    state: dict = None
    words: tuple = ()


@dataclass(frozen=True)
class Copy:
    """A copy of a set of names, as what a sector of a chain says: what is there, as pairs of a slot and what it holds."""

    names: object
    held: frozenset


def version_of(entry):
    """Which version of its place an entry writes, that is no entry of bytes."""
    return struct.unpack_from("<Q", entry.data, 0 if isinstance(entry.file, Names) else 16)[0]


class Chains:
    """What the entries of a recording become where each version has a sector of its own."""

    def __init__(self, tree):
        self.found = {it: Chain(state=dict(it.initial)) for it in tree.all_sets() if it.slots}
        self.found |= {it.place: Chain() for it in tree.files.values()}
        # the places with changes that aren't durable; and pairs of an entry, and of what its sectors say where it is one of a chain
        self.moving = {}
        self.steps = [step for it in tree.disk.entries for step in self.of(it)]

    def of(self, entry):
        """Yields what becomes of an entry."""
        place = entry.file
        if entry.kind == FLUSH:
            yield entry, None
            for place, chain in self.moving.items():
                chain.durable = chain.passed
                if chain.passed > chain.begun + self.long(place):
                    yield self.begin_anew(replace(entry, kind=FUA, file=place), chain)
            self.moving.clear()
        elif not isinstance(place, (Names, Size)):
            yield entry, None
        elif entry.kind == WRITE:
            yield self.add(entry, self.found[place])
        elif entry.anew or self.found[place].places[version_of(entry)] > self.found[place].durable:
            yield self.settle(entry, self.found[place])

    def long(self, place):
        """How many changes a chain may have after a flush: of names more, where a copy of them is long."""
        return max(LONG, len(place.slots) // 8) if isinstance(place, Names) else LONG

    def say(self, entry, chain):
        """Returns what the sector of a version says that is in force after the one before it."""
        version = version_of(entry)
        if isinstance(entry.file, Size):
            said = struct.unpack_from("<QQ", entry.data)
        else:
            said = self.names(entry.file, chain, version)
        chain.version, chain.words = version, said
        return said

    def names(self, names, chain, version):
        """What a version of a set of names changes, as pairs of a slot and what it holds; a copy where that is too much."""
        if names.keeps_order and version >= chain.version:
            changes = {slot: held for it in names.versions[chain.version + 1 : version + 1] for slot, held in it.items()}
        else:
            state = names.state(version)
            changes = {slot: state.get(slot) for slot in {**chain.state, **state} if state.get(slot) != chain.state.get(slot)}
        for slot, held in changes.items():
            chain.state.pop(slot, None)
            chain.state |= {} if held is None else {slot: held}
        return tuple(changes.items()) if len(changes) <= MOST else Copy(names, frozenset(chain.state.items()))

    def add(self, entry, chain):
        """A version is written: one more sector of the chain."""
        said = self.say(entry, chain)
        self.moving[entry.file] = chain
        chain.passed += 1
        chain.said[chain.passed], chain.places[chain.version] = said, chain.passed
        return replace(entry, sector=chain.passed), [(chain.passed, said)]

    def begin_anew(self, entry, chain):
        """The first sector of a chain stands for all that it has, durably."""
        chain.begun = chain.durable = chain.passed
        said = Copy(entry.file, frozenset(chain.state.items())) if isinstance(entry.file, Names) else chain.words
        return replace(entry, sector=0), [(chain.passed, said)]

    def settle(self, entry, chain):
        """Versions up to one are durable: their sectors, as they were written, are written durably. Where the chain is long, and nothing
        of it is in flight then, or where other versions follow than those that were written, it begins anew."""
        if entry.anew:
            self.say(entry, chain)
            return self.begin_anew(entry, chain)
        last = chain.places[version_of(entry)]
        if last == chain.passed > chain.begun + self.long(entry.file):
            return self.begin_anew(entry, chain)
        first, chain.durable = chain.durable + 1, max(chain.durable, last)
        return replace(entry, sector=first), [(number, chain.said[number]) for number in range(first, last + 1)]


class Laid:
    """The device of a recording."""

    def __init__(self, tree):
        self.tree, self.firsts, self.rooms, self.sets, self.slots, self.base = tree, {}, [], [], [], {}
        self.chains, self.copies, self.same, self.places = Chains(tree), {}, {}, {}
        at = 0
        for it, chain in self.chains.found.items():
            self.firsts[it], at = at, at + chain.passed + 2
        for file in tree.files.values():
            for room in file.rooms:
                at = self.lay_room(file, room, at)
            self.lay(self.firsts[file.place], LINK.pack(0, len(file.initial), self.firsts[file.rooms[0]]))
        at = up(at, ALIGNED)
        for it in self.chains.found:
            at = self.lay_names(it, at) if isinstance(it, Names) else at
        for _, said in self.chains.steps:
            for _, copy in said or ():
                at = self.lay_copy(copy, at) if isinstance(copy, Copy) else at
        self.sectors = up(max(at, 1), ALIGNED)

    def lay(self, first, content):
        if content:
            self.base[first] = content

    def lay_room(self, file, room, at):
        """Lays the bytes of a file out. Returns the first sector after them."""
        sectors = up(max(room.length, room.hidden), SECTOR) // SECTOR
        if sectors and at % ALIGNED + room.room + 1 > ALIGNED:
            at = up(at, ALIGNED)
        self.firsts[room] = at if sectors else 0
        self.rooms.append(Room(self.firsts[file.place], self.chains.found[file.place].passed, self.firsts[room], sectors, file.name))
        self.lay(self.firsts[room], room.initial)
        return at + room.room + 1 if sectors else at

    def lay_names(self, names, at):
        """Gives the names of a set their places, and lays its first copy out. Returns the first sector after it."""
        slots = sorted(names.slots)
        self.places[names] = {slot: place for place, slot in enumerate(slots, 1)}
        self.sets.append(Set(self.firsts[names], self.chains.found[names].passed, tuple(slots)))
        self.slots += [(self.tree.path_of(slot), self.firsts[names], place) for slot, place in self.places[names].items()]
        first = Copy(names, frozenset(names.initial.items()))
        at = self.lay_copy(first, at)
        self.lay(self.firsts[names], self.text(0, first))
        return at

    def lay_copy(self, copy, at):
        """Lays a copy of names out, unless the same is there. Returns the first sector after it."""
        if copy in self.copies:
            return at
        places, content = self.places[copy.names], bytearray(up(HELD.size * len(copy.names.slots), SECTOR))
        for slot, held in copy.held:
            HELD.pack_into(content, HELD.size * (places[slot] - 1), *self.held(held))
        # (what is the same of two sets, as nothing, stands there once)
        self.copies[copy] = self.same.setdefault(bytes(content), at)
        if self.copies[copy] != at:
            return at
        self.lay(at, bytes(content))
        return at + len(content) // SECTOR

    def held(self, held):
        """What a name holds, as the device has it."""
        kind, number = held or (0, 0)
        return kind, self.firsts[self.tree.files[number].place] if kind == FILE else number

    def text(self, number, said, place=None):
        """A sector of a chain. `place` is that of a size."""
        if place is not None:
            size, room = said
            return LINK.pack(number, size, self.firsts[self.tree.files[place.number].rooms[room]])
        if isinstance(said, Copy):
            return NAMES_LINK.pack(number, self.copies[said], *[0] * 3 * MOST)
        names = self.names_of(said)
        words = [it for slot, held in said for it in (names[slot], *self.held(held))]
        return NAMES_LINK.pack(number, 0, *words, *[0] * (3 * MOST - len(words)))

    def names_of(self, said):
        """The places of the set that some slots are of."""
        return self.places[self.tree.set_of(said[0][0])] if said else {}

    def entries(self):
        """The entries of the log, with the bytes that stand on the device."""
        for entry, said in self.chains.steps:
            if said is not None:
                place = entry.file if isinstance(entry.file, Size) else None
                entry = replace(entry, data=b"".join(self.text(number, it, place).ljust(SECTOR, b"\0") for number, it in said))
            yield entry

    def modes(self):
        """The permissions of files and folders, by a pair of the kind and of what the device has of it."""
        return {(kind, self.held((kind, number))[1]): mode for (kind, number), mode in self.tree.modes.items()}

    def image(self):
        """The device before the first entry."""
        found = bytearray(SECTOR * self.sectors)
        for first, content in self.base.items():
            found[SECTOR * first : SECTOR * first + len(content)] = content
        return bytes(found)

    def map_text(self):
        """Returns the text of files.txt."""
        lines = [HEAD, f"orders {self.tree.table}", f"sectors {self.sectors}"]
        for it in self.sets:
            lines.append(f"names {it.sector} changes {it.changes} places {len(it.slots)}")
            lines += [f"name {escaped(name)} folder {folder}" for folder, name in it.slots]
        lines += [f"size {it.size} changes {it.changes} first {it.first} sectors {it.sectors} name {escaped(it.name)}" for it in self.rooms]
        lines += [f"other {it.what} {escaped(it.text)}".rstrip() for it in self.tree.others.values()]
        modes = [(mode, "size" if kind == FILE else "folder", number) for (kind, number), mode in self.modes().items()]
        return "\n".join([*lines, *(f"mode {mode:o} {what} {number}" for mode, what, number in modes), "end", ""])


HEADER = """\
/*
 * Where recorded files lie on the device of their log, with names and sizes. Made by crashbpf-record --files {orders}; for
 * checkers in C, beside checker.h.
 *
 * {ONE} is the file that has the name {shown} in an image: `struct file it = {ONE};`. Where it.there is 0 there is no such
 * file. it.length is its size, and file_u32_at(it, at) reads the number at byte `at` of it, as u32_at does of the device; so do
 * file_u8_at, _u16_at, _u64_at, and those that end in _be. A number that isn't wholly in the file reads as 0. A name is
 * looked at by itself: whether the folder is there in which it is says the name of the folder, is_folder({ONE}).
 */
#ifndef FILES_H
#define FILES_H

#include "checker.h"

struct file {{
	u64 there, length, start, kind;
}};

/* Whether the chain that begins with this sector goes on after as many changes: what stands after a change that is lost doesn't
 * count. */
INLINED u64 goes_on_(u64 first, u64 number)
{{
	return u64_at(512 * (first + number + 1)) == number + 1;
}}

/* Where the size in force stands, of the chain that begins with this sector. */
INLINED u64 version_(u64 first)
{{
	u64 number = u64_at(512 * first), sector = first;

	while (goes_on_(first, number)) {{
		number++;
		sector = first + number;
	}}
	return 512 * sector;
}}

/* What a name is of: the one with that place in the set of names whose chain begins with this sector. */
INLINED struct file file_of(u64 set, u64 place)
{{
	u64 number = u64_at(512 * set), sector = set, kind = 0, what = 0;

	for (;;) {{
		u64 copy = u64_at(512 * sector + 8), at = 512 * copy + 8 * (place - 1);

		if (copy) {{
			kind = u32_at(at);
			what = u32_at(at + 4);
		}}
		for (at = 512 * sector + 16; at < 512 * sector + 64; at += 12)
			if (u32_at(at) == place) {{
				kind = u32_at(at + 4);
				what = u32_at(at + 8);
			}}
		if (!goes_on_(set, number))
			break;
		number++;
		sector = set + number;
	}}
	struct file it = {{ kind == 1, 0, 0, kind }};

	if (it.there) {{
		u64 size = version_(what);

		it.length = u64_at(size + 8);
		it.start = 512 * u64_at(size + 16);
	}}
	return it;
}}

#define is_folder(it) ((it).kind == 2)
/* a symbolic link, a FIFO or a socket */
#define is_other(it) ((it).kind == 3)
#define FILE_READ_(kind, read) \\
	INLINED kind file_##read(struct file it, u64 at) \\
	{{ \\
		return at < it.length && it.length - at >= sizeof(kind) ? read(it.start + at) : 0; \\
	}}
FILE_READ_(u8, u8_at)
FILE_READ_(u16, u16_at)
FILE_READ_(u32, u32_at)
FILE_READ_(u64, u64_at)
FILE_READ_(u16, u16_at_be)
FILE_READ_(u32, u32_at_be)
FILE_READ_(u64, u64_at_be)
"""


def header_text(laid):
    """The map as a header for C."""
    slots = sorted(laid.slots)
    words = [it.upper() for it in layout.words_of(path for path, _, _ in slots)]
    shown_name = escaped(slots[0][0]).replace("*/", "*_/") if slots else "name"
    text = HEADER.format(orders=laid.tree.table, ONE=words[0] if words else "NAME", shown=shown_name)
    for word, (path, sector, place) in zip(words, slots):
        text += f"\n/* {escaped(path).replace('*/', '*_/')} */\n#define {word} file_of({sector}ull, {place}ull)\n"
    return f"{text}\n#endif\n"


NAMES = re.compile(r"names (\d{1,8}) changes (\d{1,7}) places (\d{1,7})")
NAME = re.compile(r"name (\S{1,16384}) folder (\d{1,7})")
MODE = re.compile(r"mode ([0-7]{1,4}) (size|folder) (\d{1,8})")
THING = re.compile(r"other (?:(symlink|inside) (\S{1,16384})|(fifo|socket))")
ROOM = re.compile(r"size (\d{1,8}) changes (\d{1,7}) first (\d{1,8}) sectors (\d{1,8}) name (\S{1,16384})")


def is_map(text):
    """Whether a text is a map of names and sizes."""
    return text.startswith(f"{HEAD}\n")


def is_chain(first, changes, sectors):
    """Whether a device of that many sectors has a chain, and the sector after it."""
    return first + changes + 2 <= sectors


def is_room(room, sectors):
    """Whether a device of that many sectors has a room, and the chain of its size."""
    return is_chain(room.size, room.changes, sectors) and room.first + room.sectors <= sectors


def is_set(names, sectors):
    """Whether a device of that many sectors has the chain of a set, whose names can be in folders, each once."""
    parts = [name for _, name in names.slots]
    good = not any(it in (b"", b".", b"..") or b"/" in it or b"\0" in it for it in parts) and len(set(names.slots)) == len(names.slots)
    return good and is_chain(names.sector, names.changes, sectors)


class Map:
    """What a map has: the sets, the rooms, the number of sectors, what is neither file nor folder, and permissions."""

    def __init__(self, lines, sectors):
        self.lines, self.sectors, self.sets, self.rooms, self.others, self.modes = lines, sectors, [], [], [], {}
        while self.lines:
            self.take()

    def take(self):
        """Takes in what the next line begins."""
        number, line = self.lines.pop(0)
        names, room, thing, mode = (it.fullmatch(line) for it in (NAMES, ROOM, THING, MODE))
        if names:
            slots = [NAME.fullmatch(text) for _, text in self.lines[: int(names[3])]]
            if len(slots) != int(names[3]) or not all(slots):
                raise Refused(f"{number}: it has other names")
            del self.lines[: len(slots)]
            self.sets.append(Set(int(names[1]), int(names[2]), tuple((int(it[2]), unescaped(it[1])) for it in slots)))
        elif room:
            self.rooms.append(Room(*(int(room[it]) for it in range(1, 5)), unescaped(room[5])))
        elif thing:
            self.others.append(Other(thing[3]) if thing[3] else Other(thing[1], unescaped(thing[2])))
        elif mode:
            self.modes[FILE if mode[2] == "size" else FOLDER, int(mode[3])] = int(mode[1], 8)
        else:
            raise Refused(f"{number}: no line of a map")
        if names and not is_set(self.sets[-1], self.sectors) or room and not is_room(self.rooms[-1], self.sectors):
            raise Refused(f"{number}: the device has no such sectors, or a folder no such names")


def read_map(text):
    """The sets, the rooms, the number of sectors, what else there is, and the permissions that a map has. What is no map is refused with its line."""
    lines = text.split("\n")
    orders = re.fullmatch(rf"orders ({'|'.join(TABLES)})", lines[1]) if len(lines) > 2 else None
    size = re.fullmatch(r"sectors (\d{1,8})", lines[2]) if len(lines) > 2 else None
    if lines[0] != HEAD or not orders or not size:
        raise Refused("1: it is no map of files")
    if lines[-2:] != ["end", ""]:
        raise Refused(f"{len(lines)}: it is cut off")
    found = Map(list(enumerate(lines[3:-2], 4)), int(size[1]))
    return found.sets, found.rooms, found.sectors, found.others, found.modes


class Image:
    """The files of an image, read by a map. `known` may have what was found of other images of the same log, by what their chains say."""

    # How many sectors of a chain are read at once, at first and later; most are short.
    AT_ONCE = (8, 512)

    def __init__(self, device, found, known=None):
        self.device, (self.sets, rooms, self.sectors, self.others, self.modes) = device, found
        self.known = {} if known is None else known
        self.rooms = {}
        for it in rooms:
            self.rooms.setdefault(it.size, []).append(it)

    def read(self, first, sectors):
        """Returns sectors of the image, which have to be there."""
        if first + sectors > self.sectors:
            raise Refused(f"sector {first + sectors - 1} isn't there")
        self.device.seek(SECTOR * first)
        return self.device.read(SECTOR * sectors)

    def chain(self, first, changes):
        """The sectors of a chain of that many changes, one after the other up to the version that is in force."""
        parts = [self.read(first, 1)]
        number, (some, more) = struct.unpack_from("<Q", parts[0])[0], self.AT_ONCE
        while number < changes:
            count, at = min(some, changes - number), 0
            content = self.read(first + number + 1, count)
            while at < count and struct.unpack_from("<Q", content, SECTOR * at)[0] == number + at + 1:
                at += 1
            parts.append(content[: SECTOR * at])
            if at < count:
                break
            number, some = number + at, more
        return b"".join(parts)

    def chains(self):
        """The chains of the sets."""
        return [self.chain(it.sector, it.changes) for it in self.sets]

    def names(self, chains):
        """What each folder has, by the chains of the sets: names with what they are of."""
        found = {}
        for it, chain in zip(self.sets, chains):
            for (folder, name), (kind, number) in zip(it.slots, self.held(it, chain)):
                if kind:
                    self.take(found.setdefault(folder, {}), kind, number, name)
        return found

    def held(self, names, chain):
        """What each name of a set holds, by their places."""
        found = [(0, 0)] * len(names.slots)
        for at in range(0, len(chain), SECTOR):
            _, copy, *words = NAMES_LINK.unpack_from(chain, at)
            if copy:
                content = self.read(copy, up(max(HELD.size * len(found), 1), SECTOR) // SECTOR)
                found = [HELD.unpack_from(content, HELD.size * at) for at in range(len(found))]
            for place, kind, number in zip(*[iter(words)] * 3):
                if place > len(found):
                    raise Refused(f"the set of sector {names.sector} has no name {place}")
                if place:
                    found[place - 1] = kind, number
        return found

    def take(self, folder, kind, number, name):
        """Puts a name into a folder, and refuses one of nothing."""
        known = {FILE: number in self.rooms, FOLDER: True, OTHER: number < len(self.others)}
        if name in folder or not known.get(kind):
            raise Refused(f"the name {shown(os.fsdecode(name))} is of nothing")
        folder[name] = kind, number

    def room(self, number):
        """The size of the file the chain of whose size begins with a sector, and the first sector of its bytes."""
        chain = self.chain(number, self.rooms[number][0].changes)
        _, size, first = LINK.unpack_from(chain, len(chain) - SECTOR)
        if size and not any(it.first == first and size <= SECTOR * it.sectors for it in self.rooms[number]):
            raise Refused(f"the file of sector {number} has {size} bytes, and no room for them")
        return size, first

    def content(self, number):
        """The bytes of such a file."""
        size, first = self.room(number)
        return self.read(first, up(size, SECTOR) // SECTOR)[:size] if size else b""

    def listed(self):
        """What `contents` has, but of a file the sector of its size in place of its bytes. (Copies of names are never written, so it is the
        same where the chains are.)"""
        chains, sums = self.chains(), hashlib.sha256()
        for it in chains:
            sums.update(b"%d " % len(it) + it)
        key = sums.digest()
        if key not in self.known:
            self.known[key] = list(self.walked(self.names(chains)))
        return self.known[key]

    def walked(self, names):
        """Yields what there is by these names, as `listed` says."""
        made, waiting = {}, [(b"", 0)]
        while waiting:
            path, number = waiting.pop()
            for name, (kind, inside) in sorted(names.pop(number, {}).items()):
                below = os.path.join(path, name)
                if kind == FOLDER:
                    yield below, FOLDER, None, self.modes.get((FOLDER, inside))
                    waiting.append((below, inside))
                elif kind == OTHER:
                    yield below, OTHER, self.others[inside], None
                elif inside in made:
                    yield below, ANOTHER, made[inside], None
                else:
                    made[inside] = below
                    yield below, FILE, inside, self.modes.get((FILE, inside))

    def contents(self):
        """Yields what there is: its path below $FILES, its kind, of a folder None, of a file its bytes, of one more name the path of the
        first, and its permissions, where these are known. A folder comes before what is in it, and names stand in their order."""
        for path, kind, held, mode in self.listed():
            yield path, kind, self.content(held) if kind == FILE else held, mode

    def lay_out(self, folder):
        """Makes the files in a folder."""
        lay_out(self.contents(), folder)
        if (FOLDER, 0) in self.modes:
            os.chmod(folder, self.modes[FOLDER, 0])


# In `contents`: one more name of a file.
ANOTHER = 4


def lay_out(contents, folder):
    """Makes in a folder what an image has."""
    top, modes = os.fsencode(folder), []
    for path, kind, content, mode in contents:
        below = os.path.join(top, path)
        modes.append((below, mode))
        if kind == FOLDER:
            os.mkdir(below)
        elif kind == ANOTHER:
            os.link(os.path.join(top, content), below)
        elif kind == OTHER:
            make_other(content, below, top)
        else:
            with open(below, "xb") as file:
                file.write(content)
    # (a folder that can't be written gets its files before)
    for path, mode in reversed(modes):
        if mode is not None:
            os.chmod(path, mode)


def make_other(other, path, folder):
    """Makes what is neither file nor folder. A link into the folder $FILES is one into this folder."""
    if other.what == "fifo":
        os.mkfifo(path)
    elif other.what == "socket":
        os.mknod(path, stat.S_IFSOCK | 0o600)
    else:
        os.symlink(other.text if other.what == "symlink" else os.path.join(folder, other.text), path)
