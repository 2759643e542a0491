"""Random runs of a program on files: steps, and a text of strace in which each step is a call of one of the kinds that do it.

A step says what is done: that 100 bytes are written to a file at a place, that a name is another one from then on. The text says it by
whichever call does that, with flags that change nothing, on paths and descriptors of each kind. So what a recording makes of the
text has to be what a model makes of the steps.
"""
import math
import os

from notation import SECTOR
from strace_texts import FILES, HERE, MARKS, hexed

# How many contents of a file a crash may leave in a random run, at most: the model has each of them by itself.
MOST_FLYING = 500


def plan_of(chance):
    """A random run, as steps of words. Each fits what the steps before it left."""
    names, sizes, folders, steps, begun, value = {}, [], [0], [], 0, 0
    # how many versions of each sector may be left
    flying = {}
    if chance.random() < 0.6:
        size = chance.choice((0, 300, 512, 1000, 4096))
        steps.append(("base", (0, b"a"), size))
        names[0, b"a"] = ("file", 0)
        sizes.append(size)
    kinds = "mmwwwwwthrruclsssffSbeddDxkp" if chance.random() < 0.7 else "mmrrrrulDDDDsSk"
    for _ in range(chance.randint(2, 9)):
        kind = chance.choice(kinds)
        files = [it for it, held in names.items() if held[0] == "file"]
        free = [it for it in ((folder, name) for folder in folders for name in (b"a", b"b")) if it not in names]
        if kind == "m" and free:
            slot = chance.choice(free)
            names[slot] = ("file", len(sizes))
            sizes.append(0)
            steps.append(("make", slot))
        elif kind == "D" and free and len(folders) < 2:
            slot = chance.choice(free)
            names[slot] = ("folder", len(folders))
            steps.append(("folder", slot))
            folders.append(len(folders))
        elif kind in "wdh" and sizes:
            number = chance.randrange(len(sizes))
            start = chance.choice((sizes[number], sizes[number], max(sizes[number] - 200, 0), 0, 512))
            length = chance.choice((100, 200, 512, 700, 1024) if start else (100, 512, 600, 4096 + 300))
            if kind == "h":
                start, length = chance.choice((0, 200)), min(length, max(sizes[number] - 200, 0))
            written = range(start // SECTOR, -(-(start + length) // SECTOR))
            more = {**flying, **{(number, at): flying.get((number, at), 1) + 1 for at in written}}
            if not length or start + length > 5500 or math.prod(it for (file, _), it in more.items() if file == number) > MOST_FLYING:
                continue
            flying = more
            value += 1
            data = bytes(length) if kind == "h" else bytes([value]) * length
            steps.append(({"w": "write", "d": "through", "h": "hole"}[kind], number, start, data))
            sizes[number] = max(sizes[number], start + length)
        elif kind == "t" and sizes:
            number = chance.randrange(len(sizes))
            size = chance.choice((0, 0, 100, 512, 700, sizes[number] + 300, 4500))
            if size != sizes[number] and size < 5500:
                grows = size > sizes[number] and chance.random() < 0.5
                steps.append(("allocate", number, chance.choice((0, 0, sizes[number])), size) if grows else ("resize", number, size))
                sizes[number] = size
        elif kind == "u" and files:
            slot = chance.choice(files)
            del names[slot]
            steps.append(("remove", slot))
        elif kind == "r" and names:
            slot = chance.choice(sorted(names))
            to = chance.choice([*free, *(it for it in files if names[slot][0] == "file" and names[it] != names[slot])] or [slot])
            if to == slot or names[slot][0] == "folder" and to[0] == names[slot][1]:
                continue
            exchange = to in names and chance.random() < 0.3
            steps.append(("exchange" if exchange else "rename", slot, to))
            names[slot], names[to] = names.get(to), names[slot]
            if not exchange:
                del names[slot]
        elif kind == "l" and files and free:
            slot, to = chance.choice(files), chance.choice(free)
            names[to] = names[slot]
            steps.append(("link", slot, to))
        elif kind == "s" and sizes:
            steps.append(("sync", chance.randrange(len(sizes))))
            flying = {it: count for it, count in flying.items() if it[0] != steps[-1][1]}
        elif kind == "f" and sizes:
            steps.append(("sync data", chance.randrange(len(sizes))))
        elif kind == "p" and sizes:
            steps.append(("part", chance.randrange(len(sizes)), chance.choice((0, 512, 4096))))
        elif kind == "S":
            steps.append(("sync folder", chance.choice(folders)))
        elif kind == "x" and chance.random() < 0.5:
            steps.append(("sync all",))
        elif kind == "b" and sizes:
            steps.append(("begin", chance.randrange(len(sizes))))
            begun += 1
        elif kind == "e" and begun:
            begun -= 1
            steps.append(("end",))
        elif kind == "k" and chance.random() < 0.5:
            steps.append(("mark",))
        if kind in "sfSxe" and chance.random() < 0.4:
            steps.append(("mark",))
    return steps


def content_of(size):
    return bytes(100 + it % 100 for it in range(size // 100 + 1) for _ in range(100))[:size]


def quoted(data):
    return f'"{hexed(data)}"'


class Descriptor:
    """A descriptor of a file: its number, and the name by which it was opened, as that is called now; none where it is gone."""

    def __init__(self, number, slot, path):
        self.number, self.slot, self.path = number, slot, path

    def __str__(self):
        return f"{self.number}<{hexed(self.path)}>" + ("" if self.slot else "(deleted)")


class Texts:
    """The text of a run. Each file has two descriptors from the start, one with O_DSYNC; others come as they are wanted."""

    def __init__(self, chance, is_direct=True):
        # (without it nothing is written past the page cache)
        self.is_direct = is_direct
        self.chance, self.lines, self.names, self.folders = chance, [], {}, [(None, FILES.encode())]
        self.plain, self.through, self.opened, self.next, self.sizes = [], [], [], 20, []
        # the folder in which the process is, by its number; none is one outside
        self.at, self.threads, self.begun, self.used = None, 0, [], 0

    # Paths

    def folder_path(self, number):
        slot, path = self.folders[number]
        return path if slot is None else self.full(slot)

    def full(self, slot):
        return self.folder_path(slot[0]) + b"/" + slot[1]

    def here(self):
        return HERE.encode() if self.at is None else self.folder_path(self.at)

    def path(self, slot, file=None):
        """A path of a name; where a descriptor of that file will do, perhaps through it."""
        full, kind = self.full(slot), self.chance.randrange(7)
        # (the kernel takes no `.` for a name)
        near = None if self.at is None or full == self.here() else os.path.relpath(full, self.here())
        links = [it for it in self.opened if it.slot and self.names.get(it.slot) == file]
        if kind == 0 and file is not None and links:
            return b"/%s/%d" % (self.chance.choice((b"proc/self/fd", b"dev/fd", b"proc/thread-self/fd")), self.chance.choice(links).number)
        if kind == 1 and near:
            return b"/proc/self/cwd/" + near
        if kind in (2, 3) and near:
            return near
        return full if kind < 6 else HERE.encode() + b"/.." + full

    def in_folder(self, slot):
        """A folder of a call that takes one, and the path from there."""
        if self.chance.random() < 0.5:
            return f"AT_FDCWD<{hexed(self.here())}>, {quoted(self.path(slot))}"
        return f"{9 + slot[0]}<{hexed(self.folder_path(slot[0]))}>, {quoted(slot[1])}"

    # Descriptors

    def call(self, text, process=100):
        self.lines.append(f"{process} {text}")

    def open(self, slot, flags, file=None):
        """Opens a file by a name. Returns the descriptor."""
        number, self.next = self.next, self.next + 1
        found = Descriptor(number, slot, self.full(slot))
        mode = ", 0644" if "O_CREAT" in flags else ""
        kind = self.chance.randrange(3)
        if kind == 0 and "O_CREAT" not in flags:
            self.call(f"open({quoted(self.path(slot, file))}, {flags}) = {found}")
        elif kind == 1:
            how = f"{{flags={flags}{', mode=0644' if mode else ''}, resolve=0}}"
            self.call(f"openat2({self.in_folder(slot)}, {how}, 24) = {found}")
        else:
            self.call(f"openat({self.in_folder(slot)}, {flags}{mode}) = {found}")
        self.opened.append(found)
        return found

    def take(self, slot, number):
        """Gives a file its two descriptors."""
        self.plain.append(self.open(slot, "O_RDWR", number))
        self.through.append(self.open(slot, self.chance.choice(("O_RDWR|O_DSYNC", "O_RDWR|O_SYNC|O_CLOEXEC")), number))

    def some_name(self, number):
        """A name of a file, or nothing."""
        return self.chance.choice([slot for slot, held in sorted(self.names.items()) if held == number] or [None])

    def moved(self, moves, gone=()):
        """Names have moved: descriptors go along, and those of names that are gone have none any more."""
        for it in self.opened:
            if it.slot in gone:
                it.slot = None
            elif it.slot in moves:
                it.slot = moves[it.slot]
        for number, (slot, path) in enumerate(self.folders):
            self.folders[number] = (moves.get(slot, slot), path)
        for it in self.opened:
            it.path = self.full(it.slot) if it.slot else it.path

    # Steps

    def base(self, slot, size):
        self.names[slot] = len(self.sizes)
        self.sizes.append(size)
        self.take(slot, self.names[slot])

    def make(self, slot):
        """Makes an empty file of a new name."""
        number, kind = len(self.sizes), self.chance.randrange(4)
        if kind == 0:
            self.call(f"mknod({quoted(self.path(slot))}, S_IFREG|0644) = 0")
        elif kind == 1:
            self.open(slot, f"O_{self.chance.choice(('RDONLY', 'WRONLY', 'RDWR'))}|O_CREAT|{self.chance.choice(('O_EXCL', 'O_TRUNC', 'O_SYNC'))}")
        elif kind == 2:
            self.next += 1
            self.call(f"creat({quoted(self.path(slot))}, 0600) = {self.next - 1}<{hexed(self.full(slot))}>")
        else:
            self.open(slot, "O_RDWR|O_CREAT")
        self.names[slot] = number
        self.sizes.append(0)
        self.take(slot, number)

    def folder(self, slot):
        """Makes a folder of a new name, and opens it."""
        number = len(self.folders)
        self.call(self.chance.choice((f"mkdir({quoted(self.path(slot))}, 0777) = 0", f"mkdirat({self.in_folder(slot)}, 0777) = 0")))
        self.folders.append((slot, None))
        self.names[slot] = ("folder", number)
        self.call(f"openat({self.in_folder(slot)}, O_RDONLY|O_DIRECTORY) = {9 + number}<{hexed(self.full(slot))}>")

    def go(self):
        """The process goes to another folder, perhaps."""
        if self.chance.random() < 0.3:
            number = self.chance.choice((0, len(self.folders) - 1))
            path = self.folder_path(number)
            self.call(self.chance.choice((f"chdir({quoted(path)}) = 0", f"fchdir({9 + number}<{hexed(path)}>) = 0")))
            self.at = number

    def write(self, number, start, data):
        """Writes bytes, at the end perhaps by O_APPEND."""
        slot, file = self.some_name(number), self.plain[number]
        if start == self.sizes[number] and slot and self.chance.random() < 0.3:
            file = self.open(slot, "O_WRONLY|O_APPEND", number)
            self.call(f"{self.chance.choice(('write(%s, %s, %d)', 'pwrite64(%s, %s, %d, 0)')) % (file, quoted(data), len(data))} = {len(data)}")
        else:
            self.bytes(self.open(slot, "O_RDWR|O_DIRECT", number) if slot and self.is_direct and self.chance.random() < 0.2 else file, start, data, "0")
        self.sizes[number] = max(self.sizes[number], start + len(data))

    def bytes(self, file, start, data, flags):
        """Writes bytes by one of the calls for that."""
        half, length = len(data) // 2, len(data)
        pieces = ", ".join(f"{{iov_base={quoted(it)}, iov_len={len(it)}}}" for it in (data[:half], data[half:]))
        kind = self.chance.randrange(5) if flags == "0" else 5
        if kind < 2:
            self.call(f"lseek({file}, {start}, SEEK_SET) = {start}")
            self.call(f"write({file}, {quoted(data)}, {length}) = {length}" if kind else f"writev({file}, [{pieces}], 2) = {length}")
        elif kind == 2:
            self.call(f"pwrite64({file}, {quoted(data)}, {length}, {start}) = {length}")
        elif kind == 3:
            self.call(f"pwritev({file}, [{pieces}], 2, {start}) = {length}")
        else:
            self.call(f"pwritev2({file}, [{pieces}], 2, {start}, {flags}) = {length}")

    def written_through(self, number, start, data):
        """Writes bytes that are durable when the call has ended."""
        if self.chance.random() < 0.5:
            self.bytes(self.through[number], start, data, "0")
        else:
            self.bytes(self.plain[number], start, data, self.chance.choice(("RWF_DSYNC", "RWF_SYNC", "RWF_HIPRI|RWF_DSYNC")))
        self.sizes[number] = max(self.sizes[number], start + len(data))

    def some(self, number):
        """A descriptor of a file, through or not."""
        return self.chance.choice((self.plain, self.through))[number]

    def hole(self, number, start, data):
        flags = self.chance.choice(("FALLOC_FL_KEEP_SIZE|FALLOC_FL_PUNCH_HOLE", "FALLOC_FL_KEEP_SIZE|FALLOC_FL_ZERO_RANGE", "FALLOC_FL_ZERO_RANGE"))
        self.call(f"fallocate({self.some(number)}, {flags}, {start}, {len(data)}) = 0")

    def resize(self, number, size):
        """Gives a file another size."""
        slot, kind = self.some_name(number), self.chance.randrange(4)
        if slot and kind == 0:
            self.call(f"truncate({quoted(self.path(slot, number))}, {size}) = 0")
        elif slot and kind == 1 and size == 0:
            self.next += 1
            self.call(f"creat({quoted(self.path(slot, number))}, 0600) = {self.next - 1}<{hexed(self.full(slot))}>")
        elif slot and kind == 2 and size == 0:
            self.open(slot, self.chance.choice(("O_RDONLY|O_TRUNC", "O_WRONLY|O_CREAT|O_TRUNC", "O_RDWR|O_TRUNC|O_SYNC")), number)
        else:
            self.call(f"ftruncate({self.some(number)}, {size}) = 0")
        self.sizes[number] = size

    def allocate(self, number, start, size):
        self.call(f"fallocate({self.some(number)}, 0, {start}, {size - start}) = 0")
        self.sizes[number] = size

    def remove(self, slot):
        self.call(self.chance.choice((f"unlink({quoted(self.path(slot))}) = 0", f"unlinkat({self.in_folder(slot)}, 0) = 0")))
        del self.names[slot]
        self.moved({}, {slot})

    def rename(self, slot, to):
        """Gives a name another one, perhaps in the place of a file."""
        flags = "RENAME_NOREPLACE" if to not in self.names else "0"
        self.call(self.chance.choice((f"rename({quoted(self.path(slot))}, {quoted(self.path(to))}) = 0", f"renameat2({self.in_folder(slot)}, {self.in_folder(to)}, {flags}) = 0")))
        self.moved({slot: to}, {to} if to in self.names else ())
        self.names[to] = self.names.pop(slot)

    def exchange(self, slot, to):
        self.call(f"renameat2({self.in_folder(slot)}, {self.in_folder(to)}, RENAME_EXCHANGE) = 0")
        self.moved({slot: to, to: slot})
        self.names[slot], self.names[to] = self.names[to], self.names[slot]

    def link(self, slot, to):
        """Gives a file one name more."""
        links = [it for it in self.opened if it.slot and self.names.get(it.slot) == self.names[slot]]
        if links and self.chance.random() < 0.3:
            own = quoted(b"/proc/self/fd/%d" % self.chance.choice(links).number)
            self.call(f"linkat(AT_FDCWD<{hexed(self.here())}>, {own}, {self.in_folder(to)}, AT_SYMLINK_FOLLOW) = 0")
        else:
            self.call(self.chance.choice((f"link({quoted(self.path(slot))}, {quoted(self.path(to))}) = 0", f"linkat({self.in_folder(slot)}, {self.in_folder(to)}, 0) = 0")))
        self.names[to] = self.names[slot]

    def part(self, number, start):
        self.call(f"sync_file_range({self.some(number)}, {start}, 512, SYNC_FILE_RANGE_WRITE) = 0")

    def sync(self, number):
        self.call(f"fsync({self.some(number)}) = 0")

    def sync_data(self, number):
        self.call(f"fdatasync({self.some(number)}) = 0")

    def sync_folder(self, number):
        self.call(f"{self.chance.choice(('fsync', 'fdatasync'))}({9 + number}<{hexed(self.folder_path(number))}>) = 0")

    def sync_all(self):
        self.call(self.chance.choice(("sync() = 0", f"syncfs(9<{hexed(FILES.encode())}>) = 0")))

    def begin(self, number):
        self.used += 1
        self.begun.append(100 + self.used)
        self.call(f"fsync({self.some(number)} <unfinished ...>", 100 + self.used)

    def end(self):
        self.call("<... fsync resumed>) = 0", self.begun.pop(0))

    def mark(self):
        self.call(f"write(5<{hexed(MARKS.encode())}>, {quoted(b'0 m' + bytes([10]))}, 4) = 4")


KINDS = {"through": "written_through", "sync data": "sync_data", "sync folder": "sync_folder", "sync all": "sync_all"}


def text_of(steps, chance, is_direct=True):
    """A text of strace of a run, and what stood there before it. With `is_direct` some is written past the page cache."""
    it = Texts(chance, is_direct)
    before = {name: content_of(size) for what, *words in steps if what == "base" for (_, name), size in [words]}
    it.call(f"openat(AT_FDCWD<{hexed(HERE.encode())}>, {quoted(MARKS.encode())}, O_WRONLY|O_APPEND) = 5<{hexed(MARKS.encode())}>")
    it.call(f"openat(AT_FDCWD<{hexed(HERE.encode())}>, {quoted(FILES.encode())}, O_RDONLY|O_DIRECTORY) = 9<{hexed(FILES.encode())}>")
    count = sum(1 for what, *_ in steps if what == "begin")
    for thread in range(count):
        it.call(f"clone(child_stack=0x7f, flags=CLONE_VM|CLONE_FS|CLONE_FILES|CLONE_THREAD) = {101 + thread}")
    for what, *words in steps:
        it.go()
        getattr(it, KINDS.get(what, what))(*words)
    for process in range(100 + count, 99, -1):
        it.call("+++ exited with 0 +++", process)
    return "".join(f"{line}\n" for line in it.lines).encode(), before
