"""The folder of the files of an image, as crashbpf-files lays it out: names, sizes and contents are looked up in the image's sectors as the
program looks at them.

crashbpf-files asks for it: it writes its map beside the image, as MAP, and makes the folder FILES there.
"""
import errno
import os
import stat

from commands.each.second_calls import CalledFolder, Calling
from commands.each.second_images import LaidImage
from commands.each.second_log import NotedFile, NotedFolder
from commands.each.served_tree import SECTOR, Fault, File, Folder, Link, Node
from commands.record import layout, named_layout
from commands.record.calls import Refused
from commands.record.orders import FILE, FOLDER, OTHER

MAP, FILES, FAULT = b"files.map", b"files", b"files.fault"
# Numbers of folders, files and of what is neither, by the numbers that the map has for them.
FOLDERS_FROM, FILES_FROM, PLACES_FROM, OTHERS_FROM = 1 << 16, 1 << 20, 1 << 28, 1 << 30
# The folder of all files is for its owner alone, as one of a temporary name is; so is a socket.
TOP, SOCKET = 0o700, 0o600


class Device:
    """An image as a file that is read."""

    def __init__(self, looks):
        self.looks, self.at = looks, 0

    def seek(self, at):
        self.at = at

    def read(self, size):
        first = self.at // SECTOR
        return b"".join(map(self.looks.sector, range(first, first + size // SECTOR)))


class Traced(named_layout.Image):
    """The files of an image, of which no sector is looked at in vain."""

    AT_ONCE = (1, 1)


class NamedFile(File):
    """A file of an image. Its size, and where its bytes lie, are looked up when one of them is asked for."""

    def __init__(self, looks, mode, number, links, room):
        super().__init__(looks, mode, number)
        self.links, self.room = links, room
        del self.first, self.backed, self.length

    def __getattr__(self, name):
        if name not in ("first", "backed", "length"):
            raise AttributeError(name)
        try:
            self.length, self.first = self.room()
        except Refused as fault:
            self.looks.fault = f"an image can't be laid out: {fault}"
            raise Fault(errno.EIO) from None
        self.backed = self.length
        return getattr(self, name)


class CalledNamedFile(Calling, NamedFile):
    """A file of an image of which it is noted what the program does to it."""


def masked():
    """Returns the permissions of a file, of a folder and of a socket that are made."""
    mask = os.umask(0)
    os.umask(mask)
    return 0o666 & ~mask, 0o777 & ~mask, SOCKET & ~mask


class Named:
    """Makes the folder of an image of a map with names. `path` is that of the folder, for links into it; what has names of `skipped` isn't
    recorded."""

    def __init__(self, looks, found, path, skipped=()):
        self.looks, self.image, self.path = looks, Traced(Device(looks), found), path
        self.names, self.files, self.links, self.seen, self.masked = self.image.names(self.image.chains()), {}, {}, set(), masked()
        self.skipped, self.is_noted = skipped, looks.noted is not None
        for inside in self.names.values():
            for it in inside.values():
                self.links[it] = self.links.get(it, 0) + 1

    def mode(self, kind, number, usual):
        """The permissions of a file or a folder, as the map has them."""
        return self.image.modes.get((kind, number), usual)

    def look_at_sizes(self):
        """Looks at the sizes of all files, and returns them."""
        return [it.length for it in self.files.values()]

    def empty_folder(self, number, path):
        """Returns a folder without what is in it."""
        mode = stat.S_IFDIR | self.mode(FOLDER, number, self.masked[1] if number else TOP)
        if self.is_noted:
            return CalledFolder(self.looks, mode, FOLDERS_FROM + number, (0, number), path, self.skipped)
        return Folder(self.looks, mode, FOLDERS_FROM + number)

    def folder(self, number=0, path=b""):
        """Returns a folder with all that is in it."""
        made = self.empty_folder(number, path)
        for name, (kind, inside) in self.names.pop(number, {}).items():
            made.names[name] = self.folder(inside, os.path.join(path, name)) if kind == FOLDER else self.other(inside) if kind == OTHER else self.file(inside)
            made.links += kind == FOLDER
        return made

    def file(self, number):
        """Returns a file, which is one under all of its names."""
        if number not in self.files:
            mode, links = stat.S_IFREG | self.mode(FILE, number, self.masked[0]), self.links[FILE, number]
            make = CalledNamedFile if self.is_noted else NamedFile
            self.files[number] = make(self.looks, mode, FILES_FROM + number, links, lambda: self.image.room(number))
            self.files[number].key = 0, number
        return self.files[number]

    def other(self, number):
        """Returns what is neither file nor folder. Each name has one of its own, as where the files are laid out."""
        it, place = self.image.others[number], OTHERS_FROM + number if number not in self.seen else self.looks.number()
        self.seen.add(number)
        if it.what == "fifo":
            return Node(self.looks, stat.S_IFIFO | self.masked[0], place)
        if it.what == "socket":
            return Node(self.looks, stat.S_IFSOCK | self.masked[2], place)
        return Link(self.looks, it.text if it.what == "symlink" else os.path.join(self.path, it.text), place)


def placed(looks, places):
    """Returns the folder of an image of a map of places."""
    file, folder, _socket = masked()
    file, folder = stat.S_IFREG | file, stat.S_IFDIR | folder
    make_folder, make_file = (Folder, File) if looks.noted is None else (NotedFolder, NotedFile)
    top = make_folder(looks, stat.S_IFDIR | TOP, FOLDERS_FROM)
    for turn, it in enumerate(places):
        *above, name = it.name.split(b"/")
        at = top
        for part in above:
            if part not in at.names:
                at.names[part], at.links = make_folder(looks, folder, looks.number()), at.links + 1
            at = at.names[part]
        at.names[name] = make_file(looks, file, PLACES_FROM + turn, it.first, it.length)
    return top


class Folders:
    """The maps that were read, by their bytes."""

    def __init__(self, skipped=()):
        self.maps, self.skipped = {}, skipped

    def read(self, content):
        """Returns what a map has, whether it is one with names, and the number of sectors."""
        if content not in self.maps:
            text = content.decode()
            is_named = named_layout.is_map(text)
            found = named_layout.read_map(text) if is_named else layout.read_map(text)
            self.maps[content] = found, is_named, found[2 if is_named else 1]
        return self.maps[content]

    def of_run(self, folder, path):
        """Returns the folder of the files of a run's image, by the map that lies beside it, at a path."""
        looks, given = folder.looks, folder.names[MAP]
        try:
            text = bytes(given.read(0, given.size))
            found, is_named, sectors = self.read(text)
            if isinstance(looks.image, LaidImage):
                return Named(looks, looks.image.laid.found, path, self.skipped).folder()
            if sectors != looks.image.sectors:
                raise Refused(f"it has {SECTOR * looks.image.sectors} bytes, and the map is of {SECTOR * sectors}")
            return self.named(looks, found, text, path) if is_named else placed(looks, found[0])
        except (Refused, UnicodeDecodeError) as fault:
            said = File(looks, stat.S_IFREG | 0o600, looks.number())
            said.write(0, str(fault).encode())
            folder.names[FAULT] = said
            raise Fault(errno.EIO) from None

    def named(self, looks, found, text, path):
        """Returns the folder of an image of a map with names, whose text is noted where the run is."""
        it = Named(looks, found, path, self.skipped)
        if looks.noted is not None:
            looks.noted.of_names(text, it)
        return it.folder()
