"""The requests of Linux to a file system in user space, as bytes of /dev/fuse (include/uapi/linux/fuse.h), as far as they are needed."""
import struct

# A request: its length, kind and number, the node, and who asks. An answer: its length, an error or 0, and the number.
ASKED = struct.Struct("<IIQQIII4x")
ANSWERED = struct.Struct("<IiQ")

LOOKUP, FORGET, GETATTR, SETATTR, READLINK, SYMLINK = range(1, 7)
MKNOD, MKDIR, UNLINK, RMDIR, RENAME, LINK, OPEN, READ, WRITE, STATFS = range(8, 18)
RELEASE, FSYNC = 18, 20
FLUSH, INIT, OPENDIR, READDIR, RELEASEDIR, FSYNCDIR = range(25, 31)
ACCESS, CREATE, INTERRUPT, BMAP, DESTROY = range(34, 39)
BATCH_FORGET, FALLOCATE, RENAME2 = 42, 43, 45

INIT_IN, INIT_IN_MORE = struct.Struct("<IIII"), struct.Struct("<I")
# Version, readahead, flags, requests in the background and how many are many, the largest write, the grain of times, pages, flags.
INIT_OUT = struct.Struct("<IIIIHHIIHHI28x")
# Validity of the attributes, in seconds; then inode, size, blocks, times, and so on.
ATTRIBUTES = struct.Struct("<QQQQQQIIIIIIIIII")
ATTR_OUT = struct.Struct("<QII")
ENTRY_OUT = struct.Struct("<QQQQII")
SETATTR_IN = struct.Struct("<I4xQQQQQQIIII4xII4x")
OPEN_IN, OPEN_OUT = struct.Struct("<II"), struct.Struct("<QIi")
READ_IN, WRITE_IN = struct.Struct("<QQIIQII"), struct.Struct("<QQIIQII")
WRITE_OUT = struct.Struct("<II")
STATFS_OUT = struct.Struct("<QQQQQIII28x")
MKNOD_IN, MKDIR_IN, CREATE_IN = struct.Struct("<IIII"), struct.Struct("<II"), struct.Struct("<IIII")
RENAME_IN, RENAME2_IN, LINK_IN = struct.Struct("<Q"), struct.Struct("<QI4x"), struct.Struct("<Q")
FSYNC_IN = struct.Struct("<QI4x")
FALLOCATE_IN, HANDLE = struct.Struct("<QQQI4x"), struct.Struct("<Q")
FORGET_IN, BATCH_FORGET_IN, FORGET_ONE = struct.Struct("<Q"), struct.Struct("<II"), struct.Struct("<QQ")
ENTRY = struct.Struct("<QQII")

# Flags of INIT: further flags follow; a file that is opened with O_TRUNC is cut off by the open; writes have more than a page; reads of
# a folder's names go side by side; a file without the page cache may be mapped (Linux 6.6).
ATOMIC_TRUNCATE, BIG_WRITES, PARALLEL_FOLDERS, MORE_FLAGS = 1 << 3, 1 << 5, 1 << 18, 1 << 30
DIRECT_AND_MAPPED = 1 << 36
# Of what is opened: reads and writes go past the page cache.
DIRECT = 1
# Of a write: it comes from the page cache, to which a mapping stored.
OF_MAPPING = 1
# Of a sync: it is of the data alone, as that of fdatasync.
DATA = 1
# What SETATTR sets.
MODE, OWNER, GROUP, SIZE, ATIME, MTIME, CTIME, ATIME_NOW, MTIME_NOW = 1, 2, 4, 8, 16, 32, 1024, 128, 256
VERSION, MINOR = 7, 39
LARGEST_WRITE = 1 << 17
# Before a write stand its header and these words.
LONGEST = LARGEST_WRITE + 4096
FOR_LONG = 1 << 30


def attributes(node):
    """What is said of a node."""
    seconds = [it // 10**9 for it in node.times]
    parts = [it % 10**9 for it in node.times]
    blocks = -(-node.size // 512)
    return ATTRIBUTES.pack(node.number, node.size, blocks, *seconds, *parts, node.mode, node.links, node.owner, node.group, node.device, 4096, 0)


def entry(number, is_lasting, node):
    """The answer of a look-up, or of what makes a name; `is_lasting` says whether the name stays that of the node."""
    return ENTRY_OUT.pack(number, 0, FOR_LONG if is_lasting else 0, FOR_LONG, 0, 0) + attributes(node)


def names(listing, at, size):
    """The names of a folder from one on, as many as have room."""
    found = b""
    for turn in range(at, len(listing)):
        name, node = listing[turn]
        one = ENTRY.pack(node.number, turn + 1, len(name), node.mode >> 12) + name
        one = one.ljust(-(-len(one) // 8) * 8, b"\0")
        if len(found) + len(one) > size:
            break
        found += one
    return found


def text(data):
    """The name with which the words of a request end, without the zero after it."""
    return data.partition(b"\0")[0]
