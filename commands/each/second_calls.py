"""What a program does to the files of an image with their names and sizes: the calls that change them, as the server sees them, and the log
that they make by the table of the recording.

The calls are followed as those of a recording are (`commands/record/orders.py`), from the files of the first image on, and laid out on a
device of their own. A sector of a file of the first image is the same sector on both devices, so that what the first crash left there may
differ. All else of the second device hangs on what the program looked at: before its first call that counts are the sizes of all files
looked at, of a file that is cut off all its bytes, and of one that changes its last sector where that isn't whole.
"""
import hashlib
import marshal
import os
import re

from commands.each import served_wire as wire
from commands.each.served_tree import SECTOR, WHOLE, File, Folder, Link
from commands.record import named_layout
from commands.record.calls import Refused
from commands.record.disk import Disk, FLUSH, FUA
from commands.record.files import Other, skips_below
from commands.record.layout import escaped
from commands.record.orders import FILE, FOLDER, OTHER, TABLES, Tree

# Sectors of a second device that stand for none of the first one have numbers from here on.
OWN_SECTORS = 1 << 40
ORDERS = re.compile(r"^orders (\w+)$", re.M)


class Whole:
    """An image as a file that is read, without a look."""

    def __init__(self, image):
        self.image, self.at = image, 0

    def seek(self, at):
        self.at = at

    def read(self, size):
        first = self.at // SECTOR
        return b"".join(map(self.image.sector, range(first, first + size // SECTOR)))


class Replayed:
    """The files of an image, and what calls made of them."""

    def __init__(self, table, joined, image):
        self.tree, self.folders, self.files, self.old, self.changed = Tree(table, Disk(), joined), {(0, 0): 0}, {}, {}, set()
        self.image, waiting, names = image, [(0, 0)], image.names(image.chains())
        while waiting:
            number, at = waiting.pop()
            for name, (kind, inside) in sorted(names.get(number, {}).items()):
                waiting += self.begin((at, name), kind, inside)
        self.tree.modes.update({(FOLDER, self.folders[0, it]): mode for (kind, it), mode in image.modes.items() if kind == FOLDER and (0, it) in self.folders})

    def begin(self, slot, kind, inside):
        """Puts what the image has by a name there. Returns the folders that are to be gone through."""
        if kind == OTHER:
            self.tree.begin_other(slot, self.tree.new_other(self.image.others[inside]))
        elif kind == FOLDER:
            self.folders[0, inside] = self.tree.begin(slot)
            return [(inside, self.folders[0, inside])]
        elif inside in self.old:
            self.tree.begin_other(slot, (FILE, self.old[inside].number))
        else:
            self.files[0, inside] = self.old[inside] = self.tree.files[self.tree.begin(slot, self.image.content(inside))]
            self.tree.modes.update({(FILE, self.old[inside].number): mode for key, mode in self.image.modes.items() if key == (FILE, inside)})
        return []

    def go(self, calls):
        """Follows calls."""
        for name, *words in calls:
            self.tree.disk.entries.call = self.said(name, words)
            getattr(self, name)(*words)
        return self

    def said(self, name, words):
        """Returns what is said of a call."""
        if name in ("write", "resize", "sync"):
            file = self.files[words[0]]
            more = f" {len(words[2])} at {words[1]}" if name == "write" else f" to {words[1]}" if name == "resize" else ""
            return f"{name} {escaped(file.name)}{more}"
        return " ".join([name, *(escaped(it) for it in words if isinstance(it, bytes))])

    def slot(self, folder, name):
        return self.folders[folder], name

    def make(self, folder, name, file, mode):
        self.files[file] = it = self.tree.make_file(self.slot(folder, name))
        self.tree.modes[FILE, it.number] = mode

    def mkdir(self, folder, name, made, mode):
        self.folders[made] = number = self.tree.make_folder(self.slot(folder, name))
        self.tree.modes[FOLDER, number] = mode

    def other(self, folder, name, what, text):
        self.tree.make_other(self.slot(folder, name), Other(what, text))

    def link(self, folder, name, file):
        held = FILE, self.files[file].number
        self.tree.link(next(slot for slot, it in self.tree.now.items() if it == held), self.slot(folder, name))

    def remove(self, folder, name):
        self.tree.remove(self.slot(folder, name))

    def rename(self, folder, name, target, new, exchange):
        """Moves a name, or exchanges two; two names of one file stay."""
        slot, to = self.slot(folder, name), self.slot(target, new)
        if self.tree.now[slot] != self.tree.now.get(to):
            self.tree.rename(slot, to, exchange)

    def write(self, file, at, data, through, direct):
        self.changed.add(file)
        self.tree.write(self.files[file], at, data, through, direct)

    def resize(self, file, size):
        self.changed.add(file)
        if size != self.files[file].size:
            self.tree.resize(self.files[file], size)

    def sync(self, file, data):
        self.tree.end_sync(self.tree.begin_file(self.files[file], data=data))

    def syncdir(self, folder):
        self.tree.end_sync(self.tree.begin_folder(self.folders[folder]))


class Laid:
    """The device of a second log of calls: its map, and which of its sectors are those of the first device. `entries` has of each entry its
    flags, its sectors by their numbers, its bytes, and the call."""

    def __init__(self, content, image):
        text, calls = marshal.loads(content)
        table, found = ORDERS.search(text.decode())[1], named_layout.read_map(text.decode())
        if TABLES[table].again:
            raise Refused(f"by the table {table} a file may show what another one held")
        first = named_layout.Image(Whole(image), found)
        joined = None if TABLES[table].one else Replayed(table, None, first).go(calls).tree.ties()
        replayed = Replayed(table, joined, first).go(calls)
        laid = named_layout.Laid(replayed.tree)
        self.first, self.found, self.sectors, self.base = {}, named_layout.read_map(laid.map_text()), laid.sectors, bytearray(laid.image())
        for inside, file in replayed.old.items():
            self.share(*first.room(inside), laid.firsts[file.rooms[0]], (0, inside) in replayed.changed)
        self.entries = [step for it in laid.entries() for step in self.steps(it, laid.firsts)]
        for it in self.first:
            self.base[SECTOR * it : SECTOR * (it + 1)] = bytes(SECTOR)
        self.view = hashlib.sha256(repr((laid.map_text(), sorted(self.first.items()), self.entries)).encode() + self.base).hexdigest()

    def share(self, size, first, at, is_changed):
        """Has the sectors of a file stand for those of the first device; of a file that changes all that are whole."""
        count = size // SECTOR if is_changed else -(-size // SECTOR)
        self.first.update({at + it: first + it for it in range(count)})

    def number(self, sector):
        """Returns the number by which a sector of this device is known."""
        return self.first.get(sector, OWN_SECTORS + sector)

    def initial(self, number):
        """Returns what a sector of its own holds before the second log; one that isn't there nothing."""
        at = SECTOR * (number - OWN_SECTORS)
        return bytes(self.base[at : at + SECTOR])

    def steps(self, entry, firsts):
        """Yields the entries of the second log that an entry of the recording becomes."""
        if entry.kind == FLUSH or entry.flushes:
            yield FLUSH, [], b"", entry.call
        if entry.kind != FLUSH:
            first = firsts[entry.file] + entry.sector
            yield entry.kind & FUA, [self.number(first + it) for it in range(len(entry.data) // SECTOR)], entry.data, entry.call


class Calling:
    """What a file does of which the calls that change it are noted. `key` is how calls name it."""

    key, flags = None, 0

    def asked_by(self, how, flags):
        """Is told how a write comes, and the flags of the open file."""
        self.flags = flags
        if how & wire.OF_MAPPING:
            self.looks.noted.give_up("the program stored to a file by a shared mapping")

    def sync(self, data=False):
        self.looks.noted.call("sync", self.key, data)

    def held(self, place):
        """Returns a sector of which some bytes stay as they are: here that is a look."""
        own = self.own.get(place)
        if (own is None or own[1] != WHOLE) and SECTOR * place < self.backed:
            self.looks.sector(self.first + place)
        return super().held(place)

    def look_at(self, first, size):
        """Looks at the sectors of the image that a file of some size has, from one of the file on."""
        for place in range(first, -(-size // SECTOR)):
            if SECTOR * place < self.backed:
                self.looks.sector(self.first + place)

    def write(self, at, data):
        """Writes bytes, and notes that."""
        size = self.length
        self.look_at(size // SECTOR, size)
        super().write(at, data)
        self.looks.noted.call("write", self.key, at, bytes(data), bool(self.flags & os.O_DSYNC), bool(self.flags & os.O_DIRECT))

    def resize(self, size):
        """Gives the file another size, and notes that."""
        self.look_at(0 if size < self.length else self.length // SECTOR, self.length)
        super().resize(size)
        self.looks.noted.call("resize", self.key, size)


class CalledFile(Calling, File):
    """A file that the program made."""


class CalledFolder(Folder):
    """A folder of the files of an image, of which the calls that change its names are noted. `named` makes the files of the run."""

    def __init__(self, looks, mode, number, key=(0, 0), path=b"", skipped=()):
        super().__init__(looks, mode, number)
        self.key, self.path, self.skipped = key, path, skipped

    def is_skipped(self, name):
        """Whether what has a name isn't recorded."""
        return skips_below(os.path.join(self.path, name), self.skipped)

    def new_file(self, name, mode):
        """Returns a file that the program makes here."""
        if self.is_skipped(name):
            return super().new_file(name, mode)
        file = CalledFile(self.looks, mode, self.looks.number())
        file.key = 1, file.number
        return file

    def new_folder(self, name, mode):
        """Returns a folder that the program makes here."""
        if self.is_skipped(name):
            return super().new_folder(name, mode)
        number = self.looks.number()
        return CalledFolder(self.looks, mode, number, (1, number), os.path.join(self.path, name), self.skipped)

    def put(self, name, node):
        """Gives a node a name, and notes that."""
        is_named = isinstance(node, Calling) and self.looks.noted.knows(node.key)
        super().put(name, node)
        if not self.is_skipped(name):
            self.note(name, node, is_named)
        return node

    def note(self, name, node, is_named):
        """Notes what has a name now."""
        noted, mode = self.looks.noted, node.mode & 0o7777
        if is_named:
            noted.call("link", self.key, name, node.key)
        elif isinstance(node, Calling):
            noted.call("make", self.key, name, node.key, mode)
        elif isinstance(node, CalledFolder):
            noted.call("mkdir", self.key, name, node.key, mode)
        elif isinstance(node, Link):
            noted.call("other", self.key, name, "symlink", bytes(node.target))
        else:
            noted.give_up("the program made something that is no file, folder or link among the files of its image")

    def take(self, name):
        """Takes a name away, and notes that."""
        if not self.is_skipped(name):
            self.looks.noted.call("remove", self.key, name)
        return super().take(name)

    def sync(self, _data=False):
        self.looks.noted.call("syncdir", self.key)


def noted_rename(noted, folder, name, target, new, exchange):
    """Notes that a name was moved."""
    places = [(it, one) for it, one in ((folder, name), (target, new)) if isinstance(it, CalledFolder)]
    counts = [len(places) == 2 and not it.is_skipped(one) for it, one in places]
    moved = [it.names.get(one) for it, one in places]
    if any(counts) and folder.skipped and any(isinstance(it, Folder) for it in moved):
        noted.give_up("the program renamed a folder among the files of its image, some of which aren't recorded")
    elif counts and all(counts):
        noted.call("rename", folder.key, name, target.key, new, exchange)
    elif any(counts) or len(places) == 1:
        noted.give_up("the program renamed something into the files of its image, or out of them")
