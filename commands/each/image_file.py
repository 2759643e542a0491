"""The file of a runner with the bytes of an image, which records turn into those of a later one; and copies of it."""
import errno
import fcntl
import os

from commands.each.stream import RECORD, SECTOR
from commands.shared.faults import Refusal

# The request of Linux by which a file shares the blocks of another, where its file system can do that.
FICLONE = 0x40049409
PIECE = 1 << 20
# Linux can't copy from file to file on such systems, or between them.
CANT_COPY = (errno.ENOSYS, errno.EXDEV, errno.EINVAL, errno.EOPNOTSUPP, errno.EPERM)


def data_of(file, size):
    """Yields each stretch of a file that holds something: where it begins and where it ends."""
    at = 0
    while at < size:
        try:
            begin = os.lseek(file, at, os.SEEK_DATA)
        except OSError as error:
            if error.errno == errno.ENXIO:
                return
            raise
        at = min(os.lseek(file, begin, os.SEEK_HOLE), size)
        yield begin, at


def write_all(file, data, at):
    while data:
        done = os.pwrite(file, data, at)
        data, at = data[done:], at + done


def copy_stretch(source, target, begin, end):
    """Copies a stretch of a file, by the kernel where it can."""
    while begin < end:
        try:
            done = os.copy_file_range(source, target, end - begin, begin, begin)
        except OSError as error:
            if error.errno not in CANT_COPY:
                raise
            data = os.pread(source, min(end - begin, PIECE), begin)
            write_all(target, data, begin)
            done = len(data)
        if not done:
            raise OSError(errno.EIO, "it is shorter than it was")
        begin += done


class ImageFile:
    """A file with the bytes of an image. With `watched` its bytes are kept in memory too, so that a change of them is seen."""

    def __init__(self, path, sectors, base, watched):
        self.path, self.size, self.apart, self.stat = path, SECTOR * sectors, set(), None
        self.file = os.open(path, os.O_RDWR | os.O_CREAT | os.O_EXCL | os.O_CLOEXEC, 0o600)
        if base is not None:
            self.begin_with(base)
        os.ftruncate(self.file, self.size)
        self.bytes = self.whole() if watched else None

    def begin_with(self, base):
        """Begins with what a base holds, holes left as holes."""
        source = os.open(base, os.O_RDONLY | os.O_CLOEXEC)
        try:
            size = os.fstat(source).st_size
            for begin, end in data_of(source, min(size, self.size)):
                copy_stretch(source, self.file, begin, end)
        finally:
            os.close(source)

    def whole(self):
        """Returns all bytes of the image."""
        found = bytearray(self.size)
        for begin, end in data_of(self.file, self.size):
            for at in range(begin, end, PIECE):
                piece = os.pread(self.file, min(PIECE, end - at), at)
                found[at : at + len(piece)] = piece
        return found

    def patch(self, records):
        """Writes each record, which is a sector's number and its bytes."""
        for start in range(0, len(records), RECORD):
            at = SECTOR * int.from_bytes(records[start : start + 8], "little")
            data = records[start + 8 : start + RECORD]
            write_all(self.file, data, at)
            if self.bytes is not None:
                self.bytes[at : at + SECTOR] = data

    def copy(self, path):
        """Makes a new file with the same bytes, which shares their blocks where the file system can."""
        target = os.open(path, os.O_RDWR | os.O_CREAT | os.O_EXCL | os.O_CLOEXEC, 0o600)
        try:
            if not self.shared(target):
                for begin, end in data_of(self.file, self.size):
                    copy_stretch(self.file, target, begin, end)
                os.ftruncate(target, self.size)
        finally:
            os.close(target)

    def shared(self, target):
        """Whether the target has the blocks of this file now. A file system that can't do that is asked once."""
        system = os.fstat(target).st_dev
        if system in self.apart:
            return False
        try:
            fcntl.ioctl(target, FICLONE, self.file)
        except OSError:
            self.apart.add(system)
            return False
        return True

    # What a program that only reads has to leave as it was.

    def times(self):
        """Returns what changes of a file when it is written or replaced, or None where it is gone."""
        try:
            it = os.stat(self.path, follow_symlinks=False)
        except OSError:
            return None
        return it.st_dev, it.st_ino, it.st_mode, it.st_nlink, it.st_size, it.st_mtime_ns, it.st_ctime_ns

    def watch(self):
        self.stat = self.times()

    def test_unchanged(self, number):
        """Compares size, times and bytes with those at the call of `watch`."""
        if self.times() != self.stat:
            raise Refusal(f"the program changed the file of image {number}, or its times: --read-only isn't for it")
        buffer = bytearray(PIECE)
        kept = memoryview(self.bytes)
        for begin, end in data_of(self.file, self.size):
            for at in range(begin, end, PIECE):
                size = os.preadv(self.file, [memoryview(buffer)[: min(PIECE, end - at)]], at)
                if (buffer if size == PIECE else buffer[:size]) != kept[at : at + size]:
                    raise Refusal(f"the program changed bytes of image {number}: --read-only isn't for it")
