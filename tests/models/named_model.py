"""A plain model of what a crash may leave of files with names and sizes, by the tables of docs/RECORDING.md: for tests/gate/named_files.py.

Nothing is shared with commands/record. What was done is kept whole: the names after each change of them, the sizes of each file in
their order, and the versions of each sector. Of each there is a number of what is surely on the disk. `left` has every state of the
files that a crash could have left so far, with the number of marks: a map of paths to contents, where a folder has none.

The second half reads a log by docs/CRASH-MODEL.md, by sector and with any number of losses, and lays the files of each of its
images out by the head of commands/record/named_layout.py.
"""
import itertools
import struct

SECTOR, BLOCK = 512, 4096
# What a new block holds that no file had, by `writeback`.
TEXT = (b"bytes of another file, which isn't recorded\n" * BLOCK)[:BLOCK]
# Tables by which a name is by itself, and those by which fsync of a file has names durable.
APART, OWN = ("btrfs", "strict"), ("ext4", "xfs", "btrfs")
# Tables by which what was cut off from a file's last block is there again where the file gets longer, until zeros arrive there.
UNCUT = ("writeback", "xfs", "btrfs", "strict")


def chosen_of(kept, size, looked, unit=SECTOR):
    """Yields each content of that size of which each sector is one of some. With `looked` those sectors alone count, and the size."""
    parts = [[it[: size - unit * at] for it in these] if looked is None or at in looked else [b""] for at, these in enumerate(kept)]
    for chosen in itertools.product(*(set(it) for it in parts)):
        yield b"".join(chosen) if looked is None else (size, b"".join(chosen))


class File:
    """A file: each size that it had, with the number of the time since it was made shorter; its sectors in each such time. A sector has
    `unit` bytes: 512, or 4,096 where whole pages are written."""

    def __init__(self, content=b"", unit=SECTOR):
        self.sizes, self.sure, self.needs, self.unit = [(0, len(content))], 0, [{}], unit
        self.sectors = [{at: Sector(content[unit * at :][:unit], unit) for at in range(-(-len(content) // unit))}]
        self.blocks = len(content)
        # of each time how many sectors lie in blocks that it has from the time before
        self.shared = [0]
        # how many changes of names there were when its size changed last, or when it was made; and when a name of its own did
        self.stamp = self.named = 0
        # the sizes that the file system may have written down, each with how many changes of names there were at least; and which of its
        # sizes was written down at once last
        self.may, self.at_once = {(len(content), 0)}, 0
        # by `writeback`: the blocks that it has, each with who has had it, as the numbers of a file, of a time, and of a block in it;
        # those of zeros that were there at first; those that are freed hold something
        self.has = {at: [[self, 0, at]] for at in range(-(-len(content) // BLOCK))}
        self.holes = {at for at in self.has if not content[BLOCK * at :][:BLOCK].strip(b"\0")}
        # the blocks that are reserved, and show zeros
        self.unwritten = set()

    @property
    def size(self):
        return self.sizes[-1][1]

    def sector(self, at):
        return self.sectors[-1].setdefault(at, Sector(b"", self.unit))

    def put(self, at, content, time=None):
        """A sector has this content, in each time that has its block."""
        time, limit = len(self.sectors) - 1 if time is None else time, None
        while limit is None or time >= 0 and at < limit:
            self.sectors[time].setdefault(at, Sector(b"", self.unit)).versions.append(content)
            limit = self.shared[time] if limit is None else min(limit, self.shared[time])
            time -= 1


class Sector:
    def __init__(self, content, unit):
        self.versions, self.sure = [content.ljust(unit, b"\0")], 0


class Model:
    """What became of names, sizes and sectors, step by step."""

    def __init__(self, table, looked=None, unit=SECTOR):
        self.table, self.marks, self.left, self.looked, self.unit = table, 0, set(), looked, unit
        # of changes of names that are durable in part: the slots of which they aren't
        self.halves = {}
        # how many sectors a block has
        self.each = BLOCK // unit
        # what renames will tie together
        self.later = []
        # by `writeback`: the blocks that are free, in the order in which they were freed, with what they held
        self.free = []
        # each change of names: the slots that it changes, and what they hold then; the numbers of those that are durable
        self.changes, self.sure, self.base, self.files, self.folders = [], set(), {}, [], 1
        # where names are by themselves: of each set of slots that are tied together what syncs put into a log, with the number of the last
        # sync and of the changes of names then; what of the names a crash leaves by that; how many syncs there were
        self.logs, self.extras, self.syncs = {}, {}, 0

    # What a crash may leave

    def name_states(self):
        """Every map of slots to what they hold that a crash may leave: after some of the changes, in their order."""
        if self.table not in APART:
            for count in range(max(self.sure, default=-1) + 1, len(self.changes) + 1):
                yield self.after(range(count), lambda _: True)
            return
        tied = self.tied()
        rest = {slot: held for slot, held in self.base.items() if not any(slot in it for it in tied)}
        for chosen in itertools.product(*([*self.states_of(it), *self.extras.get(it, ())] for it in tied)):
            yield {slot: held for part in (rest, *chosen) for slot, held in part.items()}

    def after(self, numbers, wanted):
        """What the wanted slots hold after some of the changes."""
        state = dict(self.base)
        for number in sorted({*numbers, *self.halves}):
            state.update({slot: held for slot, held in self.changes[number].items() if number in numbers or slot not in self.halves[number]})
        return {slot: held for slot, held in state.items() if held is not None and wanted(slot)}

    def flying(self, number):
        """A change without the slots of which it is durable."""
        return {slot: None for slot in self.halves[number]} if number in self.halves else self.changes[number]

    def states_of(self, slots):
        """What slots that are tied together may hold. Each slot has its first changes, some number of them, and a change is there for all of
        its slots or for none."""
        mine = [(slot, [number for number, change in enumerate(self.changes) if slot in change]) for slot in sorted(slots)]
        found = []
        for counts in itertools.product(*(range(len(it) + 1) for _, it in mine)):
            there = {(number, slot) for (slot, it), count in zip(mine, counts) for number in it[:count]}
            whole = {number for number, _ in there if all((number, slot) in there for slot in self.changes[number])}
            durable = {(number, slot) for number, change in enumerate(self.changes) for slot in change if slot in slots}
            durable = {(number, slot) for number, slot in durable if number in self.sure or number in self.halves and slot not in self.halves[number]}
            state = self.after(whole, slots.__contains__)
            if durable <= there and all(number in whole or (number, slot) in durable for number, slot in there) and state not in found:
                found.append(state)
        return found

    def contents(self, file):
        """Every content that a crash may leave of a file."""
        found = set()
        for number in range(file.sure, len(file.sizes)):
            time, size = file.sizes[number]
            needs = {}
            for earlier in range(number + 1):
                if file.sizes[earlier][0] == time and self.table == "ordered":
                    for at, version in file.needs[earlier].items():
                        needs[at] = max(needs.get(at, 0), version)
            kept = []
            for at in range(-(-size // self.unit)):
                it = file.sectors[time].get(at)
                kept.append(it.versions[max(it.sure, needs.get(at, 0)) :] if it else [bytes(self.unit)])
            found |= set(chosen_of(kept, size, self.looked, self.unit))
        return found

    def crash(self):
        """Takes in each state that a crash may leave now."""
        found, known = set(), {}
        for state in self.name_states():
            tree, waiting = {}, [(b"", 0)]
            while waiting:
                path, number = waiting.pop()
                for (folder, name), (kind, inside) in state.items():
                    if folder == number:
                        below = path + b"/" + name if path else name
                        tree[below] = None if kind == "folder" else inside
                        waiting += [(below, inside)] if kind == "folder" else []
            numbers = sorted({it for it in tree.values() if it is not None})
            for it in numbers:
                if it not in known:
                    known[it] = self.contents(self.files[it])
            for chosen in itertools.product(*(known[it] for it in numbers)):
                held = dict(zip(numbers, chosen))
                found.add((self.marks, frozenset((path, None if it is None else held[it]) for path, it in tree.items())))
        self.left |= found

    # What is done

    def change(self, slots, is_exchange=False):
        """Changes slots to what they hold then, and notes which files have other names by that; by `xfs` an exchange is no change of theirs."""
        now = {slot: held for change in [self.base, *self.changes] for slot, held in change.items()}
        self.changes.append(slots)
        for slot, held in slots.items():
            for kind, number in (it for it in (now.get(slot), held) if it):
                if kind == "file" and not (is_exchange and self.table == "xfs"):
                    self.files[number].named = len(self.changes)
        there = [held for held in self.names_now().values() if held]
        for number in dict.fromkeys(held[1] for held in (now.get(slot) for slot in slots) if held and held[0] == "file"):
            if ("file", number) not in there:
                self.freed(self.files[number])
        self.crash()

    def names_now(self):
        """What each slot holds."""
        return {slot: held for change in [self.base, *self.changes] for slot, held in change.items()}

    # Blocks that are used again, by `writeback`

    def freed(self, file, kept=0):
        """A file has these many blocks from now on."""
        gone = [file.has.pop(at) for at in sorted(file.has) if at >= kept]
        file.holes = {it for it in file.holes if it < kept}
        self.free += [(it, [file.sector(self.each * it[-1][2] + at).versions[-1] for at in range(self.each)]) for it in gone]

    def show(self, places, sectors):
        """These places may hold these sectors, and hold what they held."""
        for file, time, number in places:
            for at, it in enumerate(sectors):
                own = file.sectors[time].setdefault(self.each * number + at, Sector(b"", self.unit)).versions[-1]
                file.put(self.each * number + at, it, time)
                file.put(self.each * number + at, own, time)

    def take(self, number):
        """A block for one of this number, with what it held."""
        same = [it for it in self.free if it[0][-1][2] == number]
        if not self.free:
            return [], [TEXT[self.unit * at : self.unit * (at + 1)] for at in range(self.each)]
        found = (same or self.free)[-1]
        self.free = [it for it in self.free if it is not found]
        return found

    def make_file(self, slot):
        """Makes an empty file of a new name."""
        self.files.append(File(unit=self.unit))
        self.files[-1].stamp = len(self.changes) + 1
        self.files[-1].may = {(0, self.files[-1].stamp)}
        self.change({slot: ("file", len(self.files) - 1)})

    def make_folder(self, slot):
        self.folders += 1
        self.change({slot: ("folder", self.folders - 1)})

    def write(self, number, start, data):
        """Bytes are written: versions of sectors, and sizes. Returns the sectors, without those of new blocks that have no bytes of it."""
        file, unit, each = self.files[number], self.unit, self.each
        old, end, border = file.size, start + len(data), -(-max(file.blocks, file.size) // BLOCK) * BLOCK // unit
        needs, own = {}, range(start // unit, -(-end // unit))
        sectors = own
        touched = range(start // BLOCK, -(-end // BLOCK))
        fresh = [it for it in touched if it not in file.has or it in file.holes] if self.table == "writeback" else []
        if fresh:
            sectors = range(min(sectors[0], each * fresh[0]), max(sectors[-1] + 1, each * (fresh[-1] + 1)))
        before = {at: file.sector(at).versions[-1] for at in sectors}
        for number in fresh:
            places, held = self.take(number)
            file.has[number] = [*places, [file, len(file.sectors) - 1, number]]
            file.holes.discard(number)
            for at, it in enumerate(held) if number not in file.unwritten else ():
                file.put(each * number + at, it)
            file.unwritten.discard(number)
        for at in sectors:
            it = file.sector(at)
            content = bytearray(before[at])
            for place in range(max(start, unit * at), min(end, unit * at + unit)):
                content[place - unit * at] = data[place - start]
            file.put(at, bytes(content))
            if at >= border:
                needs[at] = len(it.versions) - 1
        for it in touched if self.table == "writeback" else ():
            self.show(file.has[it][:-1], [file.sector(self.each * it + at).versions[-1] for at in range(self.each)])
        file.blocks = max(file.blocks, end)
        if end > old:
            for size in [it for it in range(BLOCK, end, BLOCK) if it > old] + [end]:
                self.sized(file, (len(file.sectors) - 1, size), needs)
                file.may.add((size, len(self.changes)))
        self.crash()
        return own

    def through(self, number, start, data):
        """Bytes are written, and are durable then."""
        own = self.write(number, start, data)
        self.write_out(number, start)
        self.synced(self.seen(number, own, data=True, until=start + len(data)))

    def write_out(self, number, start):
        """A part of a file is written back by itself: by `ordered` new blocks before it that aren't durable show zeros, or their bytes."""
        file, time = self.files[number], len(self.files[number].sectors) - 1
        needs = [it for (when, _), its in zip(file.sizes, file.needs) if when == time for it in its.items()]
        for at, version in needs if self.table == "ordered" else ():
            it = file.sector(at)
            if it.sure < version and at < start // BLOCK * self.each:
                for content in (bytes(self.unit), it.versions[-1]):
                    file.put(at, content)
        self.crash()

    def sized(self, file, size, needs):
        file.sizes.append(size)
        file.needs.append(needs)
        file.stamp = len(self.changes)

    def allocate(self, number, start, size):
        """Gives a file blocks from a place up to a larger size, and this size: by pieces, each up to the end of a block."""
        file = self.files[number]
        for end in range(BLOCK, size, BLOCK):
            if end > max(start, file.size):
                self.sized(file, (len(file.sectors) - 1, end), {})
        self.resize(number, size)
        file.blocks = max(file.blocks, size)
        file.unwritten |= set(range(-(-size // BLOCK))) - file.has.keys()

    def resize(self, number, size):
        """Gives a file another size: what it holds from then on, and how large it is."""
        file, unit = self.files[number], self.unit
        if size < file.size:
            self.freed(file, -(-size // BLOCK))
            kept = {}
            for at in range(size // unit, -(-size // BLOCK) * BLOCK // unit):
                file.put(at, file.sector(at).versions[-1][: max(size - unit * at, 0)].ljust(unit, b"\0"))
            for at in range(-(-size // BLOCK) * BLOCK // unit):
                versions = file.sector(at).versions[file.sector(at).sure :]
                cut = [it[: max(size - unit * at, 0)].ljust(unit, b"\0") for it in versions]
                kept[at] = Sector(b"", unit)
                kept[at].versions = [*versions[:-1], *cut] if at >= size // unit and self.table in UNCUT else cut
            file.sectors.append(kept)
            file.shared.append(-(-size // BLOCK) * BLOCK // unit)
            file.blocks = size
            file.unwritten = {it for it in file.unwritten if BLOCK * it < size}
            for at, it in file.has.items():
                it[-1] = [file, len(file.sectors) - 1, at]
        self.sized(file, (len(file.sectors) - 1, size), {})
        # (where it had that size written down, that was no change of it)
        file.may = {(size, min([count for it, count in file.may if it == size] or [len(self.changes)]))}
        file.at_once = len(file.sizes) - 1
        self.crash()

    # Syncs: what begins says what is to be durable, when it ends it is

    def names_up_to(self, count, wanted):
        """The numbers of the changes among the first `count` that are wanted, and of those that stand before them: of all, or by
        `strict` of those of the same slots."""
        found = {number for number in range(count) if wanted(self.flying(number))}
        if self.table not in APART:
            return set(range(max(found, default=-1) + 1))
        for number in reversed(range(count)):
            if any(later > number and set(self.flying(later)) & set(self.flying(number)) for later in found):
                found.add(number)
        return found

    def seen(self, number, sectors=None, data=False, alone=True, until=None):
        """What a sync of a file, that begins now, has to make durable: its sectors, its size, names, and which of the sizes that the file system
        may have written down aren't there any more then. By `ext4` and `xfs` fsync has the names up to the last change of the file's own,
        by `btrfs` its own; fdatasync, which is `data`, hasn't. Where names are by themselves one that is `alone`, and no sync of everything,
        has nothing of a file without a name. A sync of some sectors has the size as far as `until`."""
        file = self.files[number]
        time = len(file.sectors) - 1
        these = {(number, time, at): len(it.versions) - 1 for at, it in file.sectors[time].items() if sectors is None or at in sectors}
        own = self.table in OWN and not data
        kept = {it for it in file.may if (it[0] == file.size if until is None else it[0] >= until)}
        first = min(count for _, count in kept)
        kept = {(size, count) for size, count in kept if until is not None or count == first}
        if self.table in APART:
            self.log(number)
            if alone and not self.where(number)[0]:
                return {}, {}, set(), {}
            names = self.own_names(number) if own else set()
        else:
            names = self.names_up_to(max(file.stamp, file.named) if own else first, lambda _: True)
        return these, {number: self.size_seen(file, until)}, names, {number: (file.at_once, file.may - kept)}

    def size_seen(self, file, until):
        """Which of its sizes a file has at least, once a sync has ended that has its size as far as `until`: the last that was written down
        at once, or the first that is as large, and so are all after it."""
        found = len(file.sizes) - 1
        while until is not None and found > file.at_once and file.sizes[found - 1][1] >= until:
            found -= 1
        return found

    def own_names(self, number):
        """By `btrfs` the changes that gave a file the names that it has, and that made the folders of these, each with all that stand before it
        in the same slots. Of slots that renames tie together none counts where what isn't durable of these changes leaves something else there."""
        count, (names, folders) = len(self.changes), self.where(number)
        wanted = [(("file", number), self.names_up_to(count, lambda change, slot=slot: slot in change)) for slot in names]
        for folder in folders:
            made = [at for at, change in enumerate(self.changes) if ("folder", folder) in change.values()]
            wanted += [(("folder", folder), self.names_up_to(made[0] + 1, lambda change, last=made[0]: change is self.changes[last]))] if made else []
        found = set()
        for tied in self.tied():
            mine = [(held, {it for it in changes if set(self.changes[it]) <= tied} - self.sure) for held, changes in wanted]
            changes = set().union(*(its for _, its in mine))
            state = self.after(changes | self.sure, lambda _: True)
            if {state[slot] for it in changes for slot in self.flying(it) if slot in state} <= {held for held, its in mine}:
                found |= changes
        return found

    def where(self, number):
        """The slots that a file has, and the folders that these are in."""
        now = self.names_now()
        names = [slot for slot, held in now.items() if held == ("file", number)]
        folders = {folder for folder, _ in names}
        while True:
            more = {slot[0] for slot, held in now.items() if held and held[0] == "folder" and held[1] in folders} - folders
            if not more:
                return names, folders
            folders |= more

    # What a sync puts into a log, where names are by themselves

    def log(self, number):
        """A sync of a file begins: the file, and the folders that were made for it, are put into a log with the names that they have."""
        names, folders = self.where(number)
        put = [(("file", number), set(names))]
        for folder in sorted(folders):
            put += [(("folder", folder), set(it)) for it in self.changes if ("folder", folder) in it.values()][:1]
        self.syncs += 1
        for slots in self.tied():
            self.logs.setdefault(slots, {}).update({held: (self.syncs, len(self.changes)) for held, these in put if these & slots})
            self.look(slots)
        self.crash()

    def look(self, slots):
        """Adds what a crash leaves of slots by what was put into a log. A commit had been made after some of the changes, and the log has what was
        put there since then: after one of the syncs up to the first that came after the next change. Of each file the last sync counts."""
        found, states = self.extras.setdefault(slots, []), self.states_of(slots)
        now = self.after(range(len(self.changes)), slots.__contains__)
        log = {held: it for held, it in self.logs.get(slots, {}).items() if held in now.values()}
        mine = [number for number, change in enumerate(self.changes) if set(change) <= slots]
        flying, sure = [it for it in mine if it not in self.sure], {it for it in mine if it in self.sure}
        for count, after in enumerate(flying):
            before = flying[count - 1] if count else -1
            starts = sorted({it for it in log.values() if it[1] > before})
            for start in [it for it in starts if it[1] <= after] + [it for it in starts if it[1] > after][:1]:
                put = {held for held, it in log.items() if it >= start}
                more = self.put_back(self.after(sure | set(flying[:count]), slots.__contains__), put, slots)
                if more not in states and more not in found:
                    found.append(more)

    def put_back(self, state, log, slots):
        """What slots hold once a log was put back. Who holds a slot that another gets is put back as well, or is gone."""
        now, put = self.after(range(len(self.changes)), slots.__contains__), set(log)
        while True:
            more = {state[slot] for slot, held in now.items() if held in put and slot in state} - put
            if not more:
                break
            put |= more
        return {slot: held for slot, held in state.items() if held not in put} | {slot: held for slot, held in now.items() if held in put}

    def tied(self):
        """The slots in sets that renames tie together, in all of the run."""
        found = []
        for slots in (set(it) for it in [*self.changes, *self.later]):
            found = [*(it for it in found if not it & slots), frozenset().union(slots, *(it for it in found if it & slots))]
        return found

    def seen_folder(self, folder):
        """Returns what a sync of a folder makes sure: the names in it, and where names aren't by themselves that it was made. That it got
        another name is no change of a name in it."""
        made = next((it for it in self.changes if ("folder", folder) in it.values()), None) if self.table not in APART else None

        def wanted(change):
            return any(it == folder for it, _ in change) or change is made

        names = self.names_up_to(len(self.changes), wanted)
        return {}, {}, {it: self.left_behind(it, folder, names) for it in names} if self.table in APART else names, {}

    def left_behind(self, number, folder, names):
        """The slots of a change that a sync of a folder may leave as they were: that a file had in other folders from which it was renamed into
        this one, where no other change that is durable then is of these."""
        change = self.flying(number)
        gone = {slot for slot, held in change.items() if held is None and slot[0] != folder}
        comes = any(held and held[0] != "folder" for slot, held in change.items() if slot[0] == folder)
        return gone if comes and not any(gone & set(self.flying(it)) for it in names if it > number) else set()

    def seen_all(self):
        """Returns what a sync of everything makes sure."""
        found = {}, {}, self.names_up_to(len(self.changes), lambda _: True), {}
        for number in range(len(self.files)):
            these, sizes, _, gone = self.seen(number, alone=False)
            found[0].update(these)
            found[1].update(sizes)
            found[3].update(gone)
        return found

    def synced(self, seen):
        """Makes sure what a sync saw."""
        sectors, sizes, names, gone = seen
        for number, (at_once, these) in gone.items():
            if self.files[number].at_once == at_once:
                self.files[number].may -= these
        for (number, time, at), version in sectors.items():
            it = self.files[number].sectors[time][at]
            it.sure = max(it.sure, version)
        for number, size in sizes.items():
            self.files[number].sure = max(self.files[number].sure, size)
        fresh, kept = set(names) - self.sure, names if isinstance(names, dict) else {}
        self.sure |= {it for it in fresh if not kept.get(it)}
        self.halves = {it: slots for it, slots in self.halves.items() if it not in self.sure}
        self.halves |= {it: kept[it] for it in fresh if kept.get(it)}
        for slots in self.tied() if self.table in APART else ():
            if any(set(self.changes[it]) <= slots for it in fresh):
                self.extras[slots] = []
                self.look(slots)
        self.crash()

    def mark(self):
        self.marks += 1
        self.crash()


# A log, and the files of its images


def kept_at(entries, base, cut):
    """The contents that a cut leaves of each sector that may hold several. Entries are (kind, sector, data)."""
    last = max((at for at in range(cut) if entries[at][0] == "flush"), default=0)
    kept = {}
    for number, (kind, first, data) in enumerate(entries[:cut]):
        for at in range(len(data) // SECTOR if kind in ("write", "fua") else 0):
            content = data[SECTOR * at : SECTOR * (at + 1)]
            whole = kind == "fua" or number < last
            before = kept.get(first + at) or {base[SECTOR * (first + at) :][:SECTOR]}
            kept[first + at] = {content} if whole else before | {content}
    return kept


class Reader:
    """Reads the files of all images of a cut. `names` are pairs of the first sector of a chain and the names of its set, each with its
    folder."""

    def __init__(self, base, kept, names, looked=None):
        self.base, self.kept, self.names, self.looked = base, kept, names, looked

    def sector(self, number):
        return self.kept.get(number) or {self.base[SECTOR * number :][:SECTOR]}

    def chain(self, first):
        """What each version of a chain says that may be in force."""
        for text in self.sector(first):
            number, *words = struct.unpack_from("<QQQ", text)
            while True:
                after = self.sector(first + number + 1)
                there = [it for it in after if struct.unpack_from("<Q", it)[0] == number + 1]
                if len(there) < len(after):
                    yield words
                if not there:
                    break
                number, *words = struct.unpack_from("<QQQ", *there)

    def links(self, first):
        """The sectors of a chain up to each version that may be in force."""
        for text in self.sector(first):
            number, row = struct.unpack_from("<Q", text)[0], [text]
            while True:
                after = self.sector(first + number + 1)
                there = [it for it in after if struct.unpack_from("<Q", it)[0] == number + 1]
                if len(there) < len(after):
                    yield row
                if not there:
                    break
                number, row = number + 1, [*row, *there]

    def held(self, row, slots):
        """What the names of a set hold by the sectors of its chain."""
        found = {}
        for text in row:
            _, copy, *words = struct.unpack_from("<QQ12I", text)
            if copy:
                (content,) = self.bytes(copy, 8 * len(slots))
                found = {slot: struct.unpack_from("<II", content, 8 * at) for at, slot in enumerate(slots)}
            for at in range(0, 12, 3):
                if words[at]:
                    found[slots[words[at] - 1]] = tuple(words[at + 1 : at + 3])
        return {slot: held for slot, held in found.items() if held[0]}

    def bytes(self, first, length):
        """The bytes of sectors that are never written."""
        yield b"".join(it for at in range(-(-length // SECTOR)) for it in self.sector(first + at))

    def states(self):
        """Yields what the names are in each image."""
        each = [[self.held(row, slots) for row in self.links(first)] for first, slots in self.names]
        for chosen in itertools.product(*each):
            yield {slot: held for it in chosen for slot, held in it.items()}

    def contents(self, number):
        """Returns the contents that a file has in the images."""
        found = set()
        for size, first in self.chain(number):
            found |= set(chosen_of([self.sector(first + at) for at in range(-(-size // SECTOR))], size, self.looked))
        return found

    def paths(self, held):
        """The sector of each file by its path, or nothing for a folder."""
        tree, waiting = {}, [(b"", 0)]
        while waiting:
            path, number = waiting.pop()
            for (folder, name), (kind, inside) in held.items():
                if folder == number:
                    below = path + b"/" + name if path else name
                    tree[below] = None if kind == 2 else inside
                    waiting += [(below, inside)] if kind == 2 else []
        return tree

    def may_hold(self, number, content):
        """Whether a file may have this content."""
        for size, first in self.chain(number):
            pieces = [content[at : at + SECTOR] for at in range(0, size, SECTOR)]
            if size == len(content) and all(any(it.startswith(piece) for it in self.sector(first + at)) for at, piece in enumerate(pieces)):
                return True
        return False

    def has(self, tree):
        """Whether an image has these files."""
        for held in self.states():
            paths = self.paths(held)
            if paths.keys() == tree.keys() and all((it is None) == (tree[path] is None) for path, it in paths.items()):
                if all(it is None or self.may_hold(it, tree[path]) for path, it in paths.items()):
                    return True
        return False

    def trees(self):
        """Yields the paths and contents of each image."""
        known = {}
        for held in self.states():
            tree = self.paths(held)
            numbers = sorted({it for it in tree.values() if it is not None})
            for it in numbers:
                if it not in known:
                    known[it] = self.contents(it)
            for chosen in itertools.product(*(known[it] for it in numbers)):
                content = dict(zip(numbers, chosen))
                yield frozenset((path, None if it is None else content[it]) for path, it in tree.items())


def pages_at(entries, base, cut):
    """The contents that a cut leaves of each page of a device, by the number of its first sector, where an entry is lost as a whole."""
    last, size = max((at for at in range(cut) if entries[at][0] == "flush"), default=0), BLOCK // SECTOR
    kept = {}
    for number, (kind, first, data) in enumerate(entries[:cut]):
        start, end = first // size * size, first + len(data) // SECTOR
        for page in range(start, end, size) if kind in ("write", "fua") else ():
            before = kept.get(page) or {base[SECTOR * page :][:BLOCK]}
            at, until = SECTOR * (max(first, page) - page), SECTOR * (min(end, page + size) - page)
            part = data[SECTOR * (max(first, page) - first) :][: until - at]
            after = {it[:at] + part + it[until:] for it in before}
            kept[page] = after if kind == "fua" or number < last else before | after
    return kept


class PageReader(Reader):
    """Reads the files of all images of a cut, of which each page is as one entry or another left it."""

    def __init__(self, base, kept, names, pages):
        super().__init__(base, kept, names)
        self.pages = pages

    def contents(self, number):
        """Returns the contents that a file has in the images."""
        found = set()
        for size, first in self.chain(number):
            kept = [self.pages.get(first + at) or {self.base[SECTOR * (first + at) :][:BLOCK]} for at in range(0, -(-size // SECTOR), BLOCK // SECTOR)]
            found |= {b"".join(it)[:size] for it in itertools.product(*kept)}
        return found


def log_leaves(entries, base, names, looked=None, by_pages=False):
    """The files of each image of a log, with the number of marks before its cut."""
    found = set()
    for cut in range(len(entries) + 1):
        marks, kept = sum(it[0] == "mark" for it in entries[:cut]), kept_at(entries, base, cut)
        reader = PageReader(base, kept, names, pages_at(entries, base, cut)) if by_pages else Reader(base, kept, names, looked)
        found |= {(marks, it) for it in reader.trees()}
    return found


def allows(entries, base, names, marks, tree):
    """Whether an image of a log has these files, after as many marks."""
    passed = 0
    for cut in range(len(entries) + 1):
        passed += cut > 0 and entries[cut - 1][0] == "mark"
        if passed == marks and Reader(base, kept_at(entries, base, cut), names).has(dict(tree)):
            return True
    return False
