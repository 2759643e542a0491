"""The files that a run of a program sees: those of the image, and what the run makes, writes, renames and removes, which is its own.

Bytes of the image are looked up when they are read, and the sector is noted then. A sector counts as the run's own only where the run wrote
all of it: to read another one is a look at the image, also where some of its bytes were written.
"""
import errno
import os
import stat
import time

SECTOR = 512
IMAGE = b"image"
WHOLE = (1 << SECTOR) - 1
# What a run may make and write.
MOST_NODES, MOST_BYTES, LARGEST = 10_000, 128 << 20, 1 << 46
# What a run makes has numbers from this one on.
OWN = 1 << 32
# All files have these times, until a program sets others.
TIME = 1_000_000_000 * 10**9


class Fault(Exception):
    """What a request is answered with: an error of errno."""

    def __init__(self, number):
        super().__init__(os.strerror(number))
        self.number = number


class Looks:
    """The image of a run, and the sectors at which the run looked, in the order of its first looks."""

    def __init__(self, image):
        self.image, self.looked, self.nodes, self.bytes, self.fault = image, {}, 0, 0, None
        self.next = OWN
        # What the run does to its image, where that is noted.
        self.noted = None

    def sector(self, number):
        """Returns the bytes of a sector, and notes it where it counts as looked at: where an entry of the log covers it, or all count."""
        if number not in self.looked and self.image.images.counts(number):
            self.looked[number] = None
        return self.image.sector(number)

    def spend(self, nodes, size):
        """Counts what a run makes. Beyond the limits it fails, and the run can't be judged."""
        self.nodes, self.bytes = self.nodes + nodes, self.bytes + size
        if self.nodes > MOST_NODES or self.bytes > MOST_BYTES:
            self.fault = f"the program made more than {MOST_NODES} files, or wrote more than {MOST_BYTES} bytes of its own, in one run"
            raise Fault(errno.ENOSPC)

    def number(self):
        """Returns a number for what the run makes."""
        self.next += 1
        return self.next


class Node:
    """A file, a folder or a link: what `stat` says of it."""

    def __init__(self, looks, mode, number, links=1):
        self.looks, self.mode, self.number, self.links = looks, mode, number, links
        self.owner, self.group, self.device = os.getuid(), os.getgid(), 0
        self.times = [TIME, TIME, TIME]

    @property
    def size(self):
        return 0

    def set_time(self, place, nanoseconds):
        self.times[place] = time.time_ns() if nanoseconds is None else nanoseconds

    def asked_by(self, _how, _flags):
        """Is told how a write comes, and the flags of the open file."""

    def sync(self, _data=False):
        """Is told of a sync, which changes nothing that is seen."""


class File(Node):
    """A file. Its first `backed` bytes are those of the image from sector `first` on, as far as they aren't its own."""

    def __init__(self, looks, mode, number, first=0, size=0):
        super().__init__(looks, mode, number)
        self.first, self.backed, self.length, self.own = first, size, size, {}

    @property
    def size(self):
        return self.length

    def sector(self, place):
        """Returns the bytes of a sector of the file, which may be a look at the image."""
        own = self.own.get(place)
        if own is not None and own[1] == WHOLE:
            return own[0]
        if SECTOR * place >= self.backed:
            return bytes(SECTOR)
        there = self.looks.sector(self.first + place)
        left = self.backed - SECTOR * place
        if own is not None:
            return own[0]
        return there if left >= SECTOR else there[:left] + bytes(SECTOR - left)

    def read(self, at, size):
        """Returns bytes of the file, as many as are there."""
        end = min(at + size, self.length)
        if end <= at:
            return b""
        first = at // SECTOR
        found = b"".join(map(self.sector, range(first, (end - 1) // SECTOR + 1)))
        return found[at - SECTOR * first : end - SECTOR * first]

    def held(self, place):
        """Returns a sector that is to be changed, with which of its bytes are the run's own. That is no look."""
        own = self.own.get(place)
        if own is None:
            is_backed = SECTOR * place < self.backed
            self.looks.spend(0, SECTOR)
            content = self.looks.image.sector(self.first + place) if is_backed else bytes(SECTOR)
            own = self.own[place] = [bytearray(content), 0 if is_backed else WHOLE]
            self.cut_off(place, own)
        own[0] = bytearray(own[0])
        return own

    def cut_off(self, place, own):
        """Of the last sector that the image has of a file the bytes after its end are zeros, whatever the image has there."""
        left = self.backed - SECTOR * place
        if 0 < left < SECTOR:
            own[0][left:] = bytes(SECTOR - left)
            own[1] |= WHOLE >> left << left

    def write(self, at, data):
        """Writes bytes, which are the run's own from then on."""
        if at + len(data) > LARGEST:
            raise Fault(errno.EFBIG)
        done = 0
        while done < len(data):
            place, start = divmod(at + done, SECTOR)
            count = min(SECTOR - start, len(data) - done)
            if count == SECTOR:
                if place not in self.own:
                    self.looks.spend(0, SECTOR)
                self.own[place] = [data[done : done + count], WHOLE]
            else:
                own = self.held(place)
                own[0][start : start + count] = data[done : done + count]
                own[1] |= ((1 << count) - 1) << start
            done += count
        self.length = max(self.length, at + len(data))

    def resize(self, size):
        """Gives the file another size. What comes after an end once more is zeros."""
        if size > LARGEST:
            raise Fault(errno.EFBIG)
        if size < self.length:
            place, start = divmod(size, SECTOR)
            if start and (place in self.own or SECTOR * place < self.backed):
                own = self.held(place)
                own[0][start:] = bytes(SECTOR - start)
                own[1] |= WHOLE >> start << start
            for it in [it for it in self.own if SECTOR * it >= size]:
                del self.own[it]
            self.backed = min(self.backed, -(-size // SECTOR) * SECTOR)
        self.length = size

    def clear(self, at, size):
        """Makes a stretch of the file zeros, and its own."""
        end = min(at + size, self.length)
        while at < end:
            count = min(end - at, 1 << 20)
            length = self.length
            self.write(at, bytes(count))
            self.length, at = length, at + count


class Folder(Node):
    """A folder with names."""

    def __init__(self, looks, mode, number):
        super().__init__(looks, mode, number, 2)
        self.names = {}

    @property
    def size(self):
        return 4096

    def changed(self):
        """Is told that a name is to change."""

    def new_file(self, _name, mode):
        """Returns a file that the run makes here."""
        return File(self.looks, mode, self.looks.number())

    def new_folder(self, _name, mode):
        return Folder(self.looks, mode, self.looks.number())

    def find(self, name):
        """Returns what has a name; without one it is no entry."""
        found = self.names.get(name)
        if found is None:
            raise Fault(errno.ENOENT)
        return found

    def put(self, name, node):
        """Gives a node a name that is free."""
        if name in self.names:
            raise Fault(errno.EEXIST)
        if len(name) > 255:
            raise Fault(errno.ENAMETOOLONG)
        self.changed()
        self.looks.spend(1, 0)
        self.names[name] = node
        self.links += isinstance(node, Folder)
        return node

    def take(self, name):
        """Takes a name away."""
        self.changed()
        node = self.names.pop(name)
        self.links -= isinstance(node, Folder)
        node.links -= 2 if isinstance(node, Folder) else 1
        return node

    def remove(self, name, is_folder):
        """Removes a file, or a folder that is empty."""
        node = self.find(name)
        if is_folder and not isinstance(node, Folder):
            raise Fault(errno.ENOTDIR)
        if not is_folder and isinstance(node, Folder):
            raise Fault(errno.EISDIR)
        if is_folder and node.names:
            raise Fault(errno.ENOTEMPTY)
        return self.take(name)


class Link(Node):
    """A symbolic link."""

    def __init__(self, looks, target, number):
        super().__init__(looks, stat.S_IFLNK | 0o777, number)
        self.target = target

    @property
    def size(self):
        return len(self.target)


NO_REPLACE, EXCHANGE = 1, 2


def is_below(node, folder):
    """Whether a node is a folder, or in it."""
    return node is folder or isinstance(folder, Folder) and any(is_below(node, it) for it in folder.names.values() if isinstance(it, Folder))


def rename(folder, name, target, new, flags):
    """Moves a name, or exchanges two."""
    node, other = folder.find(name), target.names.get(new)
    if flags & EXCHANGE:
        other = target.find(new)
    if isinstance(node, Folder) and is_below(target, node) or flags & EXCHANGE and isinstance(other, Folder) and is_below(folder, other):
        raise Fault(errno.EINVAL)
    folder.changed()
    target.changed()
    if flags & EXCHANGE:
        folder.names[name], target.names[new] = other, node
        for it, moved in ((folder, isinstance(other, Folder) - isinstance(node, Folder)), (target, isinstance(node, Folder) - isinstance(other, Folder))):
            it.links += moved
        return
    if other is node:
        return
    if other is not None:
        if flags & NO_REPLACE:
            raise Fault(errno.EEXIST)
        if isinstance(other, Folder) and not isinstance(node, Folder):
            raise Fault(errno.EISDIR)
        target.remove(new, isinstance(node, Folder))
    del folder.names[name]
    folder.links -= isinstance(node, Folder)
    target.names[new] = node
    target.links += isinstance(node, Folder)


class LaidLooks(Looks):
    """The looks at an image on a device of its own, by the numbers that its sectors have beside those of the log."""

    def sector(self, number):
        self.looked.setdefault(self.image.laid.number(number))
        return self.image.sector(number)


class Hidden(File):
    """The image of such a run, at which nobody can look: its files are those of another device."""

    def read(self, _at, _size):
        self.looks.fault = "the program looks at its image beside the files of it, so no power cut can be told of what it does to these"
        raise Fault(errno.EIO)


def image_folder(looks, make=File):
    """The folder of a run: the image, as a file, which `make` makes."""
    folder = Folder(looks, stat.S_IFDIR | 0o700, 1)
    folder.names[IMAGE] = make(looks, stat.S_IFREG | 0o600, 2, 0, SECTOR * looks.image.sectors)
    return folder
