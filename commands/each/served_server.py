"""The server of a run's images: a process that answers the requests of Linux for the files of one mount.

The root has a folder for each runner, by its number. In it a run finds its files. A runner tells by a message which image is the next one,
and afterwards it is told at which sectors the run looked. Each run has nodes of its own, so that nothing that the kernel keeps of an
earlier one is seen. The server never looks at the mount itself, and runs nothing: else it would wait for its own answers.
"""
import errno
import os
import select
import stat
import struct

from commands.each import served_wire as wire
from commands.each.second_calls import noted_rename
from commands.each.second_images import LaidImage, image_said
from commands.each.second_log import Noted, NotedImage
from commands.each.served_folder import FILES, MAP, Folders
from commands.each.served_tree import EXCHANGE, IMAGE, TIME, Fault, File, Folder, Hidden, LaidLooks, Link, Looks, Node, image_folder, rename

ROOT = 1
# Before each message stands its length. One of a runner has its number, the cut, and the choice. With the cut ENDS the run is over, and with
# RECOVERED nothing more is noted of it.
LENGTH, TOLD = struct.Struct("<I"), struct.Struct("<QQ")
ENDS, RECOVERED = (1 << 64) - 1, (1 << 64) - 2
# The answer: the length of a fault, the number of sectors, and the length of the second log; then these, a sector as a number of 8 bytes.
SAID = struct.Struct("<IQQ")
NOTHING = SAID.pack(0, 0, 0)
WRITABLE_BITS = 0o7777
# What stands after the choice of an image that is only to be copied.
KEPT = " kept"


class Root:
    """The root of the mount, with a folder for each runner that is at an image."""

    def __init__(self):
        self.mode, self.number, self.links, self.size = stat.S_IFDIR | 0o755, ROOT, 2, 4096
        self.owner, self.group, self.device, self.times = os.getuid(), os.getgid(), 0, [TIME] * 3
        self.seats, self.looks = {}, None

    def find(self, name):
        if name not in self.seats:
            raise Fault(errno.ENOENT)
        return self.seats[name]

    def sync(self, _data=False):
        """(Nothing is written here.)"""

    @property
    def names(self):
        return self.seats


class Server:
    """The mount: its nodes by their numbers, and what is open. With `logs`, the second logs that are known, what a program does to
    its image is noted."""

    def __init__(self, device, images, is_direct, path, logs=None):
        self.device, self.images, self.is_direct, self.path = device, images, is_direct, os.fsencode(path)
        self.root, self.folders, self.logs = Root(), Folders(logs.skipped if logs else ()), logs
        self.nodes, self.numbers, self.open, self.next, self.next_open = {ROOT: self.root}, {}, {}, ROOT, 0
        self.asked = {
            wire.LOOKUP: self.lookup,
            wire.GETATTR: self.getattr,
            wire.SETATTR: self.setattr,
            wire.READLINK: self.readlink,
            wire.SYMLINK: self.symlink,
            wire.MKNOD: self.mknod,
            wire.MKDIR: self.mkdir,
            wire.UNLINK: self.unlink,
            wire.RMDIR: self.rmdir,
            wire.RENAME: self.rename,
            wire.RENAME2: self.rename2,
            wire.LINK: self.link,
            wire.OPEN: self.opened,
            wire.READ: self.read,
            wire.WRITE: self.write,
            wire.STATFS: self.statfs,
            wire.RELEASE: self.release,
            wire.RELEASEDIR: self.release,
            wire.FSYNC: self.fsync,
            wire.FSYNCDIR: self.fsync,
            wire.OPENDIR: self.opendir,
            wire.READDIR: self.readdir,
            wire.CREATE: self.create,
            wire.FALLOCATE: self.fallocate,
            wire.DESTROY: self.nothing,
        }

    # Requests

    def serve_one(self):
        """Takes a request and answers it. Returns whether the mount is still there."""
        try:
            data = os.read(self.device, wire.LONGEST)
        except OSError as error:
            if error.errno in (errno.EINTR, errno.EAGAIN, errno.ENOENT):
                return True
            return False
        _length, kind, unique, node, *_who = wire.ASKED.unpack_from(data)
        self.take(kind, unique, node, data[wire.ASKED.size :])
        return kind != wire.DESTROY

    def take(self, kind, unique, number, data):
        """Answers a request, or forgets a node, which has no answer."""
        if kind == wire.FORGET:
            return self.forget(number, wire.FORGET_IN.unpack_from(data)[0])
        if kind == wire.BATCH_FORGET:
            for at in range(wire.BATCH_FORGET_IN.unpack_from(data)[0]):
                self.forget(*wire.FORGET_ONE.unpack_from(data, wire.BATCH_FORGET_IN.size + wire.FORGET_ONE.size * at))
            return None
        if kind == wire.INTERRUPT:
            return None
        if kind == wire.INIT:
            return self.answer(unique, 0, self.begin(data))
        return self.answer(unique, *self.answer_of(kind, number, data))

    def answer_of(self, kind, number, data):
        """The error of a request, or 0, and its answer."""
        act = self.asked.get(kind)
        if act is None:
            return errno.ENOSYS, b""
        node = self.nodes.get(number)
        if node is None:
            return errno.ESTALE, b""
        try:
            return 0, act(node, data)
        except Fault as fault:
            return fault.number, b""

    def answer(self, unique, fault, data):
        """Answers a request, whose asker may be gone."""
        try:
            os.writev(self.device, [wire.ANSWERED.pack(wire.ANSWERED.size + len(data), -fault, unique), data])
        except OSError as error:
            # (who asked is gone)
            if error.errno not in (errno.ENOENT, errno.EINTR):
                raise

    def begin(self, data):
        """Settles how the kernel asks: without readahead, and past the page cache where it can do that for mapped files too."""
        _major, minor, _readahead, flags = wire.INIT_IN.unpack_from(data)
        if flags & wire.MORE_FLAGS and len(data) >= wire.INIT_IN.size + wire.INIT_IN_MORE.size:
            flags |= wire.INIT_IN_MORE.unpack_from(data, wire.INIT_IN.size)[0] << 32
        wanted = wire.ATOMIC_TRUNCATE | wire.BIG_WRITES | wire.PARALLEL_FOLDERS | wire.MORE_FLAGS | wire.DIRECT_AND_MAPPED
        flags &= wanted if self.is_direct else wanted & ~wire.DIRECT_AND_MAPPED
        self.is_direct = bool(flags & wire.DIRECT_AND_MAPPED)
        low, high = flags & 0xFFFFFFFF, flags >> 32
        return wire.INIT_OUT.pack(wire.VERSION, min(minor, wire.MINOR), 0, low, 16, 12, wire.LARGEST_WRITE, 1, 0, 0, high)

    # Nodes

    def number_of(self, node):
        """The number by which the kernel knows a node."""
        found = self.numbers.get(id(node))
        if found is None:
            self.next += 1
            found = self.numbers[id(node)] = self.next
            self.nodes[found] = node
        return found

    def forget(self, number, _times):
        """(A run's nodes are dropped when it is over.)"""

    def entry(self, node, is_lasting=True):
        return wire.entry(self.number_of(node), is_lasting, node)

    def lookup(self, folder, data):
        if not isinstance(folder, (Folder, Root)):
            raise Fault(errno.ENOTDIR)
        return self.entry(folder.find(wire.text(data)), folder is not self.root)

    def getattr(self, node, _data):
        return wire.ATTR_OUT.pack(wire.FOR_LONG, 0, 0) + wire.attributes(node)

    def setattr(self, node, data):
        """Sets a mode, an owner, a size or times, for this run alone."""
        valid, _handle, size, _owner, *times_in, mode, owner, group = wire.SETATTR_IN.unpack_from(data)
        if node is self.root:
            raise Fault(errno.EPERM)
        seconds, parts = times_in[:3], times_in[3:]
        if valid & wire.MODE:
            node.mode = stat.S_IFMT(node.mode) | mode & WRITABLE_BITS
        node.owner = owner if valid & wire.OWNER else node.owner
        node.group = group if valid & wire.GROUP else node.group
        if valid & wire.SIZE:
            node.resize(size)
        for place, (one, now) in enumerate(((wire.ATIME, wire.ATIME_NOW), (wire.MTIME, wire.MTIME_NOW), (wire.CTIME, 0))):
            if valid & (one | now):
                node.set_time(place, None if valid & now else seconds[place] * 10**9 + parts[place])
        return self.getattr(node, data)

    # Names

    def made(self, folder, name, node):
        if folder is self.root:
            raise Fault(errno.EACCES)
        return self.entry(folder.put(name, node))

    def make_file(self, folder, name, mode):
        if folder is self.root:
            raise Fault(errno.EACCES)
        return folder.put(name, folder.new_file(name, mode))

    def mknod(self, folder, data):
        """Makes a file, or something special of the run's own."""
        mode, device, _mask, _more = wire.MKNOD_IN.unpack_from(data)
        name = wire.text(data[wire.MKNOD_IN.size :])
        if stat.S_ISREG(mode):
            return self.entry(self.make_file(folder, name, mode))
        if folder is self.root:
            raise Fault(errno.EACCES)
        node = Node(folder.looks, mode, folder.looks.number())
        node.device = device
        return self.made(folder, name, node)

    def mkdir(self, folder, data):
        """Makes a folder of the run's own."""
        mode, _mask = wire.MKDIR_IN.unpack_from(data)
        name = wire.text(data[wire.MKDIR_IN.size :])
        if folder is self.root:
            raise Fault(errno.EACCES)
        seat = next((number for number, it in self.root.seats.items() if it is folder), None)
        if name == FILES and MAP in folder.names and seat is not None:
            if folder.looks.noted:
                folder.looks.noted.has_files = True
            return self.made(folder, name, self.folders.of_run(folder, os.path.join(self.path, seat, FILES)))
        return self.made(folder, name, folder.new_folder(name, stat.S_IFDIR | mode & WRITABLE_BITS))

    def symlink(self, folder, data):
        """Makes a symbolic link of the run's own."""
        name, _zero, target = data.partition(b"\0")
        if folder is self.root:
            raise Fault(errno.EACCES)
        return self.made(folder, name, Link(folder.looks, wire.text(target), folder.looks.number()))

    def readlink(self, node, _data):
        if not isinstance(node, Link):
            raise Fault(errno.EINVAL)
        return node.target

    def link(self, folder, data):
        """Gives a file one name more."""
        node = self.nodes.get(wire.LINK_IN.unpack_from(data)[0])
        if node is None or isinstance(node, (Folder, Root)):
            raise Fault(errno.EPERM)
        found = self.made(folder, wire.text(data[wire.LINK_IN.size :]), node)
        node.links += 1
        return self.entry(node) if found else found

    def unlink(self, folder, data):
        return self.removed(folder, data, False)

    def rmdir(self, folder, data):
        return self.removed(folder, data, True)

    def removed(self, folder, data, is_folder):
        """Takes a name away."""
        if folder is self.root:
            raise Fault(errno.EACCES)
        folder.remove(wire.text(data), is_folder)
        return b""

    def rename(self, folder, data):
        return self.renamed(folder, wire.RENAME_IN.unpack_from(data)[0], 0, data[wire.RENAME_IN.size :])

    def rename2(self, folder, data):
        return self.renamed(folder, *wire.RENAME2_IN.unpack_from(data), data[wire.RENAME2_IN.size :])

    def renamed(self, folder, number, flags, text):
        """Moves a name within a run."""
        target = self.nodes.get(number)
        if not isinstance(folder, Folder) or not isinstance(target, Folder) or folder.looks is not target.looks:
            raise Fault(errno.EXDEV)
        name, _zero, new = text.partition(b"\0")
        noted = folder.looks.noted or Noted()
        with noted.pause():
            rename(folder, name, target, wire.text(new), flags)
        noted_rename(noted, folder, name, target, wire.text(new), bool(flags & EXCHANGE))
        return b""

    # What is open

    def handle(self, it, flags=0):
        self.next_open += 1
        self.open[self.next_open] = it
        return wire.OPEN_OUT.pack(self.next_open, flags, 0)

    def opened(self, node, data):
        """Opens a file, which O_TRUNC cuts off."""
        flags, _more = wire.OPEN_IN.unpack_from(data)
        if not isinstance(node, File):
            raise Fault(errno.EISDIR)
        if flags & os.O_TRUNC:
            node.resize(0)
        return self.handle(node, wire.DIRECT if self.is_direct else 0)

    def create(self, folder, data):
        """Makes a file and opens it."""
        flags, mode, _mask, _more = wire.CREATE_IN.unpack_from(data)
        name = wire.text(data[wire.CREATE_IN.size :])
        node = folder.names.get(name) if isinstance(folder, Folder) else None
        if node is None:
            node = self.make_file(folder, name, mode)
        elif flags & os.O_EXCL:
            raise Fault(errno.EEXIST)
        elif flags & os.O_TRUNC:
            node.resize(0)
        return self.entry(node) + self.handle(node, wire.DIRECT if self.is_direct else 0)

    def release(self, _node, data):
        self.open.pop(wire.HANDLE.unpack_from(data)[0], None)
        return b""

    def read(self, node, data):
        _handle, at, size, *_more = wire.READ_IN.unpack_from(data)
        return node.read(at, size)

    def write(self, node, data):
        """Writes bytes to a file."""
        _handle, at, size, how, _owner, flags, _zero = wire.WRITE_IN.unpack_from(data)
        node.asked_by(how, flags)
        node.write(at, data[wire.WRITE_IN.size : wire.WRITE_IN.size + size])
        return wire.WRITE_OUT.pack(size, 0)

    def fsync(self, node, data):
        node.sync(bool(wire.FSYNC_IN.unpack_from(data)[1] & wire.DATA))
        return b""

    def fallocate(self, node, data):
        """Reserves room, which may make a file larger, or makes a stretch zeros."""
        _handle, at, length, mode = wire.FALLOCATE_IN.unpack_from(data)
        if mode & ~0x13:
            raise Fault(errno.EOPNOTSUPP)
        if mode & 0x12:
            node.clear(at, length)
        if not mode & 1 and at + length > node.size:
            node.resize(at + length)
        return b""

    def opendir(self, node, _data):
        """Takes a listing, in the order of the names."""
        listing = [(b".", node), (b"..", node), *sorted(node.names.items())]
        return self.handle(listing)

    def readdir(self, _node, data):
        handle, at, size, *_more = wire.READ_IN.unpack_from(data)
        return wire.names(self.open.get(handle, []), at, size)

    def statfs(self, _node, _data):
        return wire.STATFS_OUT.pack(1 << 22, 1 << 21, 1 << 21, 1 << 20, 1 << 20, 4096, 255, 4096)

    def nothing(self, _node, _data):
        return b""

    # Runs

    def told(self, data):
        """Takes the message of a runner, and returns what is said to it."""
        seat, cut = TOLD.unpack_from(data)
        if cut == ENDS:
            return self.ended(b"%02d" % seat)
        if cut == RECOVERED:
            self.end_notes(self.root.seats[b"%02d" % seat])
            return NOTHING
        text = data[TOLD.size :].decode()
        self.root.seats[b"%02d" % seat] = image_folder(Looks(self.images.image(cut, text))) if self.logs is None else self.noted_folder(cut, text)
        return NOTHING

    def noted_folder(self, cut, text):
        """Returns the folder of a run of which it is noted what it does to its image, where this is one of the log."""
        image = image_said(self.images, cut, text.removesuffix(KEPT), self.logs)
        is_laid = image.images.view is not None
        looks = LaidLooks(LaidImage(image)) if is_laid else Looks(image)
        looks.noted = Noted()
        if image.images is not self.images:
            looks.noted.end()
        return image_folder(looks, Hidden if is_laid and not text.endswith(KEPT) else NotedImage)

    def ended(self, name):
        """Drops the files of a run, and says at which sectors it looked, and what it did to its image where that was noted."""
        folder = self.root.seats.pop(name)
        looks, log = folder.looks, self.noted(folder)
        for number in [number for number, it in self.nodes.items() if it.looks is looks]:
            del self.numbers[id(self.nodes.pop(number))]
        for handle in [handle for handle, it in self.open.items() if (it[0][1] if isinstance(it, list) else it).looks is looks]:
            del self.open[handle]
        fault = (looks.fault or "").encode()
        return SAID.pack(len(fault), len(looks.looked), len(log)) + fault + struct.pack(f"<{len(looks.looked)}Q", *looks.looked) + log

    def noted(self, folder):
        """Returns what a run did to its image, and keeps it, where that is noted and the image is one of the log's."""
        noted = folder.looks.noted
        if noted is None or folder.looks.image.images is not self.images:
            return b""
        self.end_notes(folder)
        content = noted.told()
        return self.logs.keep(content, folder.looks.image).encode() + content

    def end_notes(self, folder):
        """Notes nothing more of a run."""
        if not isinstance(folder.names.get(IMAGE), NotedImage):
            folder.looks.noted.give_up("the program renamed or removed its image")
        folder.looks.noted.end()


def answered(said):
    """Returns what an answer has: the text of a fault, the sectors, and the second log."""
    length, count, log = SAID.unpack_from(said)
    at = SAID.size + length
    return said[SAID.size : at].decode(), struct.unpack_from(f"<{count}Q", said, at), said[len(said) - log :]


def sent(channel, data):
    channel.sendall(LENGTH.pack(len(data)) + data)


def received(channel):
    """Returns the next message of a channel, or none where nobody is at its other end."""
    data, size = b"", LENGTH.size
    try:
        while len(data) < size:
            more = channel.recv(size - len(data))
            if not more:
                return b""
            data += more
            if len(data) == LENGTH.size:
                size += LENGTH.unpack(data)[0]
    except ConnectionError:
        return b""
    return data[LENGTH.size :]


def serve(device, images, channels, is_direct, path, logs=None):
    """Answers requests and messages until the mount at a path is gone, or nobody is left who tells of runs."""
    server, poller = Server(device, images, is_direct, path, logs), select.poll()
    poller.register(device, select.POLLIN)
    left = {it.fileno(): it for it in channels}
    for number in left:
        poller.register(number, select.POLLIN)
    while left:
        for number, event in poller.poll():
            if number == device:
                if event & ~select.POLLIN or not server.serve_one():
                    return
                continue
            data = received(left[number])
            if data:
                sent(left[number], server.told(data))
            else:
                poller.unregister(number)
                del left[number]
