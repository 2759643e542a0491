"""What files from outside held while a program was recorded, where that is known.

They are read when the program has ended. So only of a file that nobody has changed since before the recording began it is known
what it held in between: any change of a file, and any new name of it, gives it a later ctime. The clock of that is the kernel's, so
a file system that another machine or a program keeps isn't trusted, and nor are times of whole seconds that are as late as the begin.
"""
import os
import re
import stat
from contextlib import suppress
from pathlib import Path

# File systems whose times are those of the kernel at hand.
OWN_CLOCK = set("ext2 ext3 ext4 xfs btrfs f2fs bcachefs zfs tmpfs ramfs overlay squashfs erofs iso9660".split())
SECOND = 10**9
# What is said to do about a file of which nothing is known.
ADVICE = "have it in $FILES by --base"


class Unknown(Exception):
    """Why nothing is known of a file."""


class File:
    """A file from outside that was opened, or what else isn't recorded, by its path of that time."""

    def __init__(self, path):
        self.path = path


def kind_of(path, mounts):
    """The kind of the file system that a path is on. `mounts` has the lines of /proc/self/mounts."""
    found = (0, "")
    for line in mounts:
        _, where, kind = line.split(b" ")[:3]
        where = re.sub(rb"\\([0-7]{3})", lambda it: bytes([int(it[1], 8)]), where)
        if path == where or path.startswith(where.rstrip(b"/") + b"/"):
            found = max(found, (len(where), kind.decode("ascii", "replace")), key=lambda it: it[0])
    return found[1]


def state_of(file):
    it = os.fstat(file)
    return it.st_dev, it.st_ino, it.st_mode, it.st_size, it.st_mtime_ns, it.st_ctime_ns


class Surroundings:
    """The files from outside. `begun` is the ctime of a file that was made right before the program began, or 0."""

    def __init__(self, begun):
        self.begun, self.renamed = begun, []
        self.mounts = Path("/proc/self/mounts").read_bytes().splitlines() if begun else []

    def note_renamed(self, paths):
        """The program has renamed a file or a folder, so what has these paths now may be another than before."""
        self.renamed += paths

    def is_late(self, time):
        """Whether a time may be one after the recording began. Times of whole seconds may be all that a file system has."""
        return time >= (self.begun if time % SECOND else self.begun - 2 * SECOND)

    def read(self, path, start, length):
        """Returns bytes of a file as they were all the time."""
        if any(path == it or path.startswith(it + b"/") for it in self.renamed):
            raise Unknown("the program renames it, or a folder that it is in")
        return self.opened(path, lambda file: self.read_whole(file, start, length))

    def read_moved(self, path):
        """Returns the bytes of a file that got a name while the program ran, which changed its ctime, as they were before that: nobody
        has written it since."""
        return self.opened(path, self.read_old)

    def opened(self, path, read):
        """What is read of a file, which is opened for it."""
        if kind_of(path, self.mounts) not in OWN_CLOCK:
            raise Unknown("by its file system it isn't seen when it was changed")
        with suppress(OSError):
            if not stat.S_ISREG(os.lstat(path).st_mode):
                raise Unknown("it is no regular file")
            file = os.open(path, os.O_RDONLY | os.O_NOFOLLOW | os.O_NONBLOCK | os.O_CLOEXEC)
            try:
                return read(file)
            finally:
                os.close(file)
        raise Unknown("it isn't there any more, or can't be read")

    def read_whole(self, file, start, length):
        """Reads bytes of an open file that has all of them, and that nobody has changed since the beginning."""
        before, content = state_of(file), b""
        if self.is_late(before[-1]):
            raise Unknown("it was changed after the recording began, or right before")
        while len(content) < length and (more := os.pread(file, length - len(content), start + len(content))):
            content += more
        if len(content) < length or state_of(file) != before:
            raise Unknown("it hasn't as many bytes, or is being changed")
        return content

    def read_old(self, file):
        """Reads all of an open file that nobody has written since the beginning."""
        before, content = state_of(file), b""
        if self.is_late(before[-2]):
            raise Unknown("it was written after the recording began, or right before")
        while more := os.pread(file, 1 << 20, len(content)):
            content += more
        if len(content) != before[3] or state_of(file) != before:
            raise Unknown("it is being changed")
        return content
