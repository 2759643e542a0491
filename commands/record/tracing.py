"""Follows the calls of a program: which descriptor is of which file, what was written where, and what was synced.

Recorded are the files below one folder, but for those that are skipped. Whatever may write one of them in a way that strace
doesn't show, or changes what can't be said in a log, is refused with its line: a log without it would promise too much. Refused
too is what doesn't fit: a descriptor of a recorded file that no call opened, or one that strace says is of another file.

Two things are left out of a log, the sizes of files and their names: a file is taken to have the largest size that it gets, and
its name, from the start. So where a file is unlinked or gets shorter the log ends, and where anything is written after that it
is refused.
"""
import os
import re
from contextlib import suppress

from commands.record.calls import NAMED, Refused, brief, child_of, happened, hexed, named, shown, string, unhexed
from commands.record import links
from commands.record import outside
from commands.record.copies import CLONES, Copying
from commands.record.disk import FLUSH, FUA, PAGE as PAGES, SECTOR, WRITE, Entry, runs
from commands.record.files import MARKS, File, Flight, Maker, Opened, Other, Passed, Process, Range, Space, Table, flags_of, skips
from commands.record.known import ASKED, BROKEN, CHANGES, COPIES, HARMLESS, KINDS, MADE_APART, MOVES, NOT_BEGUN, NOT_DONE, NOT_RESERVED, NOT_SYNCED, OPENS, READS, RWF
from commands.record.known import SYNCS, THROUGH, UNSEEN, WRITES
from commands.record.numbers import Numbers
from commands.record.pipes import Pipes
from commands.record.told import told, words_of

# What names the process itself in /proc, and what there leads to a file of a process: its number, the link, a descriptor.
OWN = (b"/proc/self", b"/proc/thread-self")
OF_PROCESS = re.compile(rb"/proc/(?:(\d+)|self|thread-self)(?:/task/\d+)?/(cwd|root|exe|fd/(\d+))")
# Other links of /proc, which lead where no path says it.
MAGIC = re.compile(rb"/proc/(?:\d+|self|thread-self)(?:/task/\d+)?/(?:map_files|ns|fd)/[^/]+")
# (Linux follows as many)
MOST_LINKS = 40
PAGE = os.sysconf("SC_PAGESIZE")
LOOKED_AT = "--mapped looks at such a file at each call"
# The most syncs before which a write in flight is put, too.
MOST_PASSED = 16
BY_CALLS = "without --parts pages it is recorded"
DIRECT = {"O_DIRECT", "__O_DIRECT"}


class Tracing(Copying):
    """A program that is followed. `before` has the files of the folder, by their names in it; `begun` is when it began, as
    `outside.py` has it."""

    def __init__(self, folder, before, skipped, disk, made, at, marks=None, begun=0):
        self.folder, self.skipped, self.disk, self.made, self.at = os.fsencode(folder), skipped, disk, made, os.fsencode(at)
        self.prefix, self.marks = self.folder + b"/", None if marks is None else os.fsencode(marks)
        self.files = {name: File(name, content) for name, content in before.items()}
        self.folders = {b""} | {b"/".join(it.split(b"/")[:end]) for it in before for end in range(1, it.count(b"/") + 1)}
        self.found, self.flights, self.ended, self.notes = {}, {}, None, []
        self.first, self.gone, self.written_outside = None, set(), {}
        # the paths of what isn't recorded and was opened to be written; and the links that there are where nothing is recorded
        self.written, self.links = set(), links.Links()
        # what has a name in the folder, and is neither file nor folder
        self.others = {}
        self.surroundings = outside.Surroundings(begun)
        # what a line has that names the folder
        self.mentioned = hexed(self.folder)
        # what looks say of mapped files, where these are recorded
        self.mapped, self.pipes, self.numbers = None, Pipes(self), Numbers(self)
        # a change of names or sizes within which its process ended
        self.unfinished = None
        # pairs of a call that changed something, and of a sync that ended while it was in flight
        self.passed = []
        self.handled = {name: getattr(self, f"end_{it}") for it, names in KINDS.items() for name in names}

    # What is known of names

    def name(self, path):
        """The name of a recorded file that has this path, or nothing."""
        if path is None or not path.startswith(self.prefix):
            return None
        name = path[len(self.prefix) :]
        return None if skips(name, self.skipped) else name

    def path(self, call, folder, at):
        """The path that a word of a call names, as the folder of a descriptor or of the process has it."""
        given = call.data(at)
        if call.astray and not given.startswith(b"/") and (folder is None or call.word(folder).startswith("AT_FDCWD")):
            raise Refused(f"{call}: another thread changed the folder of the process at once, and which was first isn't known")
        if folder is None:
            base = self.process(call).folder[0]
        else:
            found = NAMED.match(call.word(folder))
            # (what is unlinked has no path, and another one may have its name)
            base = unhexed(found[2]) if found and not found[3] else None
        if not given.startswith(b"/"):
            if base is None:
                raise Refused(f"{call}: the folder that it means isn't known")
            given = os.path.join(base, given)
        head, tail = os.path.split(given.rstrip(b"/") or b"/")
        return os.path.join(self.real(call, head), tail)

    def real(self, call, path):
        """An absolute path without links, as the process of a call sees it: /proc/self is that process."""
        done, left, links = b"/", path.split(b"/"), 0
        while left:
            part = left.pop(0)
            if part in (b"", b"."):
                continue
            at = os.path.dirname(done) if part == b".." else os.path.join(done, part)
            link = None if part == b".." else self.link(call, at)
            if link is None:
                done = at
                continue
            links += 1
            if links > MOST_LINKS:
                raise Refused(f"{call}: {shown(os.fsdecode(path))} leads through more than {MOST_LINKS} links")
            done, left = b"/" if link.startswith(b"/") else done, link.split(b"/") + left
        return done

    def real_now(self, call, path):
        """As `real`, where nothing depends on what the path was of at another time."""
        relied, self.links.relied = self.links.relied, {}
        try:
            return self.real(call, path)
        finally:
            self.links.relied = relied

    def link(self, call, path):
        """What a path links to, or nothing where it is no link. The links of /proc are those of the process that it names."""
        if path in OWN:
            return None
        found = OF_PROCESS.fullmatch(path)
        if not found:
            if MAGIC.fullmatch(path):
                raise Refused(f"{call}: what {shown(os.fsdecode(path))} is to the process isn't known; name the file by its path")
            return self.links.text(path)
        process = self.found.get(int(found[1])) if found[1] else self.process(call)
        if process is not None and found[2] == b"cwd":
            return process.folder[0]
        known = process.table.get(int(found[3]), (None, False))[0] if process is not None and found[3] else None
        if known is None or known.file is MARKS or known.file.unlinked:
            raise Refused(f"{call}: what {shown(os.fsdecode(path))} is to the process isn't known; name the file by its path")
        return self.prefix + known.file.name

    # Processes

    def process(self, call):
        """What is known of the process of a call."""
        number = call.process
        if number not in self.found:
            makers = self.made.get(number)
            if self.first is None:
                self.first = number
                self.found[number] = Process(Table(), [self.at], Space(), Maker(number))
            elif not makers:
                raise Refused(f"{call}: no call was seen that made process {number}")
            else:
                self.found[number] = self.child(makers.popleft(), number)
        return self.found[number]

    def child(self, maker, number):
        """What a new process of that number has of the one that made it."""
        parent = self.found.get(maker.parent)
        if parent is None:
            raise Refused(f"calls:{maker.line}: process {maker.parent}, which makes another, isn't known")
        flags = flags_of(maker.flags)
        return Process(
            parent.table if "CLONE_FILES" in flags else parent.table.copy(),
            parent.folder if "CLONE_FS" in flags else list(parent.folder),
            parent.space if "CLONE_VM" in flags or maker.flags == "vfork" else parent.space.copy(),
            parent.maker if "CLONE_THREAD" in flags else Maker(number, parent.maker.words, parent.maker),
        )

    def follow(self, stream):
        """Follows all that happened."""
        for kind, it in happened(stream, self.handled):
            self.disk.entries.call = it
            if kind == "begin":
                self.begin(it)
            elif kind == "end":
                self.follow_end(it)
            elif kind == "over":
                self.over(it)
            elif kind == "moved":
                self.found[it[1]] = self.found.pop(it[0], None) or self.found.get(it[1])
                self.flights[it[1]] = self.flights.pop(it[0], None) or Flight()
            else:
                self.gone.add(it)
                self.found.pop(it, None)
        if self.first is None:
            raise Refused("calls: no process was seen")
        if self.found:
            raise Refused(f"calls: the text ends before process {min(self.found)} did")
        if self.mapped is not None:
            self.notes += self.mapped.finish().notes()
        self.notes += self.notes_of_passed()

    def follow_end(self, call):
        """A call has ended."""
        count, flight = len(self.disk.entries), self.flights.get(call.process) or Flight()
        settles = flight.sync is not None and self.covers(flight.sync) or self.is_through(call, flight)
        self.disk.before = {} if flight.passed else None
        self.end(call)
        if len(self.disk.entries) == count and call.name not in SYNCS:
            return
        call.told = told(self, call)
        made = [it for it in self.disk.entries[count:] if it.call is call]
        durable = [it for it in made if it.kind in (FLUSH, FUA)]
        if any(it.kind == WRITE for it in made) and flight.sync is None:
            self.pass_syncs(call, flight, made)
        if settles and durable:
            for other in self.flights.values():
                self.note_passed(other, call, durable[0], made[-1])

    def note_passed(self, flight, call, first, last):
        """A sync has ended, whose first and last entries these are, while another call is in flight."""
        is_write = flight.call is not None and flight.call.name in WRITES and isinstance(flight.file, File)
        if len(flight.passed) <= (MOST_PASSED if is_write else 0):
            places = self.places_of(flight.file) if is_write else ()
            flight.passed.append(Passed(call, first, last, {it: frozenset(self.disk.unsure.get(it, ())) for it in places}))

    def places_of(self, file):
        """Where the bytes of a file lie, of which a write is in flight by itself."""
        return [file]

    def pass_syncs(self, call, flight, made):
        """A call has ended that was in flight where syncs of others ended. Its entries stand after theirs, and may have arrived before."""
        for number, it in enumerate(flight.passed):
            if number == MOST_PASSED or not self.arrives_before(call, it, made):
                self.passed.append((call, it.call))
                break

    def arrives_before(self, call, passed, made):
        """Puts the writes of a call before the entries of a sync, too, and after these what its sectors hold without them. Returns whether that
        could be done: with whole writes of bytes alone, to sectors that had no other version in flight then."""
        writes, without = [it for it in made if it.kind == WRITE], {}
        places = [(it.file, it.sector + at) for it in writes for at in range(it.count)]
        is_plain = call.name in WRITES and self.mapped is None and all(it.file in passed.unsure for it in made if it.kind != FLUSH)
        if not is_plain or any(number in passed.unsure[file] or self.disk.before.get((file, number)) is None for file, number in places):
            return False
        for file, number in places:
            without.setdefault(file, {})[number] = self.disk.before[file, number]
        self.insert(passed.first, False, [Entry(WRITE, it.file, it.sector, it.data) for it in writes], call)
        self.insert(passed.last, True, [Entry(FUA, *it) for it in runs(without)], passed.call)
        return True

    def insert(self, entry, after, more, call):
        """Inserts entries of a call right before or after another one. Calls in flight that began after that one are told of them."""
        entries = self.disk.entries
        place, seen = entries.place(entry), entries.call
        entries.call = call
        for number, it in enumerate(more, place + after):
            entries.insert(number, it)
        entries.call = seen
        for other in self.flights.values():
            other.entries += len(more) if other.entries > place else 0

    def is_through(self, call, flight):
        """Whether a call is a write that makes its bytes durable."""
        if call.name not in WRITES or flight.opened is None or call.failed() or call.result is None:
            return False
        return flight.opened.through or bool(self.write_flags(call) & THROUGH)

    def notes_of_passed(self):
        """What a reader should know of calls that were in flight where a sync ended."""
        if not self.passed:
            return []
        names = ", ".join(f"calls:{call.line} {call.name} at calls:{sync.line} {sync.name}" for call, sync in self.passed[:3])
        more = f", and {len(self.passed) - 3} more" if len(self.passed) > 3 else ""
        return [f"calls were in flight where a sync ended ({names}{more}): that such a call has arrived, and what the sync was of is lost, isn't tested"]

    # Calls

    def begin(self, call):
        """A call begins."""
        process = self.process(call)
        call.maker = process.maker
        self.note_folder(call, process)
        if self.mapped is not None:
            self.mapped.before(call)
        if self.mentioned in call.text:
            self.agree(call, process, call.text)
        flight = self.flights[call.process] = Flight(call=call)
        self.numbers.begin(call, process, flight)
        if call.name in SYNCS:
            self.begin_sync(call, process, flight)
        elif call.name == "msync" and self.mapped is not None:
            flight.sync = self.mapped.begin_sync(call, process)
        elif call.name in ("truncate", "truncate64"):
            flight.all_changes = {it: (len(it.changed), it.grown, len(it.copied)) for it in self.files.values()}
            flight.named = self.at_path(call)
        elif call.name in (*WRITES, *READS, *MOVES, "preadv2"):
            flight.opened = process.table.get(call.number(0), (None, False))[0]
            flight.other = process.table.others.get(call.number(0), (None, False))[0]
            flight.file = flight.opened and flight.opened.file
        elif call.name in COPIES or call.name == "ioctl" and CLONES.search(call.text):
            self.begin_copy(call, process, flight)
        elif call.name == "close":
            flight.closing = process.table.opened(call.number(0))
        elif call.name == "chdir":
            flight.at = process.folder[0]
        flight.entries = len(self.disk.entries)
        if flight.opened is not None or flight.other is not None:
            flight.moved, flight.turned = (flight.opened or flight.other).moved, (flight.opened or flight.other).turned
        if isinstance(flight.file, File):
            flight.grown, flight.changes, flight.copies = flight.file.grown, len(flight.file.changed), len(flight.file.copied)
        self.pipes.begin(call, flight)

    def note_folder(self, call, process):
        """Takes the folder of a process from a line that has it, as strace found it when the call began."""
        at = call.text.find("AT_FDCWD<")
        found = NAMED.match(call.text, at) if at >= 0 else None
        if found and not found[3]:
            process.folder[0] = unhexed(found[2])

    def move_folders(self, old, new):
        """A folder got another name: whoever is in it, or below it, is there still."""
        for it in {id(it.folder): it.folder for it in self.found.values()}.values():
            if it[0] == old or it[0].startswith(old + b"/"):
                it[0] = new + it[0][len(old) :]

    def end(self, call):
        """A call has ended."""
        process = self.process(call)
        if self.mapped is not None:
            self.mapped.before_end(call)
        flight = self.flights.pop(call.process, None) or Flight()
        handler = self.handled.get(call.name)
        if self.is_change(call) and (call.error in BROKEN or self.unfinished is not None and not call.failed() and self.may_change(call, flight)):
            if self.unfinished is not None:
                raise Refused(f"{self.unfinished}: its process ended within it, so whether it was done isn't known, and names or sizes change after that: {call}")
            raise Refused(f"{call}: a change that fails so leaves nothing that is known; record again, on a disk that is well")
        self.numbers.used(call, flight)
        if flight.other is not None and call.name not in COPIES:
            self.move_other(call, flight)
        if handler is not None:
            handler(call, process, flight)
        elif call.name in UNSEEN:
            if not re.search(r"= (-1 E|\?|0x0$)", call.text) and not (call.name == "io_submit" and call.text.endswith("= 0")):
                raise Refused(f"{call}: {UNSEEN[call.name]}")
        elif call.name.startswith("syscall_"):
            if not call.text.endswith(")") or " = -1 ENOSYS " not in call.text:
                raise Refused(f"{call}: this strace doesn't know the call")
        elif call.name in HARMLESS:
            if self.mentioned in call.text:
                self.agree_at_end(call, process)
        elif self.mentioned in call.text and " = -1 E" not in call.text:
            self.refuse_unless_skipped(call)
        self.pipes.end(call, process, flight)
        self.numbers.given(call, flight)

    def is_change(self, call):
        """Whether a call changes names or sizes."""
        return call.name in CHANGES and (call.name not in OPENS or call.name == "creat" or bool(re.search("O_CREAT|O_TRUNC", call.text)))

    def may_change(self, call, flight):
        """Whether a change of names or sizes may be one of what is recorded."""
        if call.name in ("ftruncate", "ftruncate64", "fallocate"):
            return isinstance(flight.file, File)
        try:
            if call.name in ("rename", "renameat", "renameat2", "link", "linkat"):
                paths = self.both_paths(call, "rename" if call.name.startswith("rename") else "link")
            elif call.name.startswith("symlink"):
                paths = [self.path(call, *((1, 2) if call.name == "symlinkat" else (None, 1)))]
            elif call.name == "bind":
                return "AF_UNIX" in call.text
            else:
                paths = [self.path(call, *((0, 1) if call.name in ("openat", "openat2", "unlinkat", "mkdirat", "mknodat") else (None, 0)))]
            return any(self.name(it) is not None or self.name(self.real_now(call, it)) is not None for it in paths)
        except Refused:
            return True

    def over(self, call):
        """The process of a call ended within it."""
        flight = self.flights.pop(call.process, None)
        self.pipes.over(call, flight)
        self.numbers.over(call, flight)
        if self.is_change(call) and self.may_change(call, flight or Flight()):
            self.unfinished = self.unfinished or call
        if call.name in (*WRITES, *MOVES, *COPIES, "ioctl") and flight and flight.file is not None and call.name not in ("lseek", "_llseek"):
            raise Refused(f"{call}: the process ended within the call, so what it wrote isn't known")
        if call.name in UNSEEN:
            raise Refused(f"{call}: {UNSEEN[call.name]}")
        if call.name not in self.handled and call.name not in HARMLESS and self.mentioned in call.text:
            self.refuse_unless_skipped(call)

    def agree(self, call, process, text):
        """Compares the files of descriptors that a line names with what the calls before it say."""
        for number, path, gone in named(re.split(r"\) += ", brief(text))[0]):
            self.agrees(call, process, number, path, gone)

    def agrees(self, call, process, number, path, gone):
        """Refuses a descriptor that isn't of the file that strace names, or whose file was unlinked unseen."""
        name = self.name(path)
        if name is None or number == "AT_FDCWD" or name in self.folders:
            return
        known = process.table.get(int(number), (None, False))[0]
        if known is None or known.file is MARKS or known.file.name != name:
            if known is None and (os.path.isdir(path) or name in self.others):
                return
            raise Refused(f"{call}: no call was seen that made descriptor {number} one of {shown(os.fsdecode(name))}")
        if gone and not known.file.unlinked:
            raise Refused(f"{call}: no call was seen that unlinked {shown(os.fsdecode(name))}")

    def agree_at_end(self, call, process):
        """Compares the descriptors that a call answered with those that are known. A call that answers one of a recorded file isn't followed."""
        # (strace puts spaces before the sign, so that those of short lines stand below one another)
        answer = re.split(r"\) += ", call.text)[-1]
        if self.mentioned in answer or re.search(r"cmsg_data=\[[^\]]*" + re.escape(f"<{self.mentioned}"), call.text) and "recv" in call.name:
            for number, path, _ in named(answer) + named(call.text):
                name = self.name(path)
                if name and name not in self.folders and process.table.opened(int(number) if number.isdigit() else -1) is None:
                    raise Refused(f"{call}: a descriptor of {shown(os.fsdecode(name))} comes by a call that isn't followed")

    def refuse_unless_skipped(self, call):
        """Refuses a call that isn't followed, where it names a recorded file."""
        paths = [path for _, path, _ in named(call.text)] + [unhexed(it) for it in re.findall(r'"((?:\\x[0-9a-f]{2})*)"', call.text)]
        for path in paths:
            name = self.name(path)
            if name is not None and name not in self.folders:
                raise Refused(f"{call}: this call isn't followed, and may write {shown(os.fsdecode(name))}")

    def close_log(self, call, what):
        """The log ends here."""
        if self.ended is None:
            self.ended = call
            self.notes.append(f"the log ends at {call}: {what}, and names and sizes are left out")

    def still(self, call, what):
        """Refuses what comes after the end of the log."""
        if self.ended is not None:
            raise Refused(f"{call}: {what} after a name or a size was changed, which is left out: {self.ended}")

    # Descriptors

    def end_open(self, call, process, flight):
        """Puts an opened file into the process's table; follows what O_CREAT and O_TRUNC make of it."""
        if call.failed() or call.result is None:
            return
        if call.path is None:
            raise Refused(f"{call}: strace doesn't say which file it opened")
        flags = flags_of(call.text) | ({"O_WRONLY", "O_CREAT", "O_TRUNC"} if call.name == "creat" else set())
        process.table.drop(call.result)
        writable, closes = bool(flags & {"O_WRONLY", "O_RDWR"}), "O_CLOEXEC" in flags
        if self.marks is not None and call.path == self.marks:
            process.table.put(call.result, Opened(MARKS, False, False, writable), closes)
            return
        name = self.name(call.path)
        if name is None:
            process.table.put(call.result, Opened(outside.File(call.path), "O_APPEND" in flags, False, writable), closes)
            if writable:
                self.written.add(call.path)
            if writable and not call.gone and call.path.startswith(b"/"):
                self.links.opened(call.path)
            if writable and not call.path.startswith((self.prefix, b"/dev/", b"/proc/", b"pipe:", b"socket:")):
                self.written_outside.setdefault(call.path, call)
            if writable and re.fullmatch(rb"/proc/\d+/(task/\d+/)?mem", call.path):
                raise Refused(f"{call}: what is written to memory isn't followed")
            return
        if "O_TMPFILE" in flags:
            raise Refused(f"{call}: a file without a name isn't followed; make it with a name; the guest")
        if call.gone and name not in self.folders:
            raise Refused(f"{call}: it opens a file that has no name any more, or loses it at once, and which one isn't known; keep its name; the guest")
        if name in self.folders or "O_DIRECTORY" in flags or "O_PATH" in flags:
            if name not in self.files:
                return
        if name in self.others:
            process.table.put(call.result, Opened(outside.File(call.path), "O_APPEND" in flags, False, writable), closes)
            return
        file = self.files.get(name)
        if file is None or file.unlinked:
            if "O_CREAT" not in flags:
                if os.path.isdir(call.path):
                    return
                raise Refused(f"{call}: no call was seen that made {shown(os.fsdecode(name))}")
            file = self.make(call, name, flight)
        elif writable or "O_TRUNC" in flags:
            for other in self.flights.values():
                other.reopened.add(name)
        # (Linux cuts the file off even where it is opened for reading alone, and looks at no other flag beside O_PATH)
        if "O_TRUNC" in flags and "O_PATH" not in flags:
            if file in flight.touched:
                raise Refused(f"{call}: another call changed {shown(os.fsdecode(name))} at once, and which was first isn't known")
            self.resize(call, file, 0, Flight(grown=file.grown, changes=len(file.changed), copies=len(file.copied), version=flight.version, cuts=flight.cuts, kept=flight.kept))
        opened = Opened(file, "O_APPEND" in flags, bool(flags & THROUGH), writable, direct=bool(flags & DIRECT))
        process.table.put(call.result, opened, closes)
        if not writable:
            self.note_read(call, name, opened, flight)

    def note_read(self, call, name, opened, flight):
        """A file was opened for reading alone."""

    def make(self, call, name, _flight):
        """A file is made."""
        self.still(call, f"{shown(os.fsdecode(name))} is made")
        self.files[name] = File(name)
        return self.files[name]

    def end_dup(self, call, process, _flight):
        """Gives a descriptor one number more, by dup, dup2 and dup3."""
        if call.failed() or call.result is None:
            return
        if call.name == "dup2" and call.number(0) == call.number(1):
            return
        process.table.put(call.result, process.table.opened(call.number(0)), "O_CLOEXEC" in call.text)

    def end_fcntl(self, call, process, flight):
        """Follows what fcntl makes of a descriptor: a copy, whether exec closes it, whether writes append."""
        if call.failed() or call.result is None:
            return
        known, command = process.table.opened(call.number(0)), call.word(1)
        if command in ("F_DUPFD", "F_DUPFD_CLOEXEC"):
            process.table.put(call.result, known, command == "F_DUPFD_CLOEXEC")
        elif command == "F_SETFD":
            process.table.put(call.number(0), known, "FD_CLOEXEC" in call.word(2))
        elif known is not None and command == "F_SETFL":
            before = known.append, known.direct
            known.append, known.direct = "O_APPEND" in call.word(2), "O_DIRECT" in call.word(2)
            known.moved += 1
            if before != (known.append, known.direct):
                known.turned += 1
                if known.file in flight.touched:
                    raise Refused(f"{call}: another call wrote {shown(os.fsdecode(known.file.name))} at once, and which was first isn't known; another try may pass")

    def end_ioctl(self, call, process, flight):
        """Follows the ioctls of close-on-exec and reflinks, and refuses others that may write a recorded file."""
        if call.failed() or call.result is None:
            return
        known, asked = process.table.opened(call.number(0)), call.word(1)
        found = NAMED.match(call.word(0))
        if asked in ("FIOCLEX", "FIONCLEX"):
            process.table.put(call.number(0), known, asked == "FIOCLEX")
        elif found and asked not in ASKED and (unhexed(found[2]) == self.folder or self.name(unhexed(found[2])) in self.folders):
            raise Refused(f"{call}: this ioctl of a folder isn't followed, and may change what is in it")
        elif known is None or not isinstance(known.file, File):
            # (a loop device writes the file that it is of, and its own path is another)
            self.refuse_handed(call, asked)
        elif asked in ASKED:
            return
        elif CLONES.search(asked):
            self.end_clone(call, flight)
        else:
            raise Refused(f"{call}: this ioctl isn't followed, and may write {shown(os.fsdecode(known.file.name))}")

    def refuse_handed(self, call, asked):
        """Refuses an ioctl of what isn't recorded that is given a recorded file, unless it is a reflink, which reads it alone."""
        if any(self.mentioned in it for it in call.words[2:]) and not CLONES.search(asked):
            self.refuse_unless_skipped(call)

    def end_close(self, call, process, flight):
        # (Linux closes it, whatever the error but EBADF; another thread may have opened something by this number since)
        if process.table.opened(call.number(0)) is flight.closing:
            process.table.drop(call.number(0))

    def end_close_range(self, call, process, _flight):
        """Closes a range of descriptors, or marks them to be closed by exec."""
        if call.failed():
            return
        first, last = call.number(0), call.number(1)
        if "CLOSE_RANGE_UNSHARE" in call.text:
            process.table = process.table.copy()
        for number, (opened, _) in process.table.all().items():
            if first <= number <= last:
                process.table.put(number, opened if "CLOSE_RANGE_CLOEXEC" in call.text else None, True)

    def end_execve(self, call, process, _flight):
        """Closes what exec closes, and forgets the mappings of the program before."""
        if call.failed():
            return
        process.table = process.table.kept()
        process.maker = Maker(process.maker.process, words_of(call, self.folder), process.maker)
        process.space = Space()

    def end_chdir(self, call, process, flight):
        """Moves the folder of a process, and of those that share it. Their calls in flight may have had the one or the other."""
        if call.failed():
            return
        if call.name == "fchdir":
            found = NAMED.match(call.word(0))
            if not found or found[3]:
                raise Refused(f"{call}: strace doesn't say which folder it is")
            process.folder[0] = unhexed(found[2])
        else:
            given = call.data(0)
            if call.astray and not given.startswith(b"/"):
                raise Refused(f"{call}: another thread changed the folder of the process at once, and which was first isn't known")
            process.folder[0] = self.real(call, os.path.join(flight.at or process.folder[0], given))
        for number, it in self.flights.items():
            if it.call is not None and number in self.found and self.found[number].folder is process.folder:
                it.call.astray = True

    def end_unshare(self, call, process, _flight):
        """Gives a process a table and a folder of its own, and refuses mounts of its own."""
        if call.failed():
            return
        if "CLONE_NEWNS" in call.text:
            raise Refused(f"{call}: {MADE_APART['CLONE_NEWNS']}")
        if "CLONE_FILES" in call.text:
            process.table = process.table.copy()
        if "CLONE_FS" in call.text:
            process.folder = list(process.folder)

    def end_make(self, call, _process, _flight):
        """Takes in a process that was made, by the call that made it."""
        if call.failed() or not call.result:
            return
        for flag, why in MADE_APART.items():
            if flag in call.text:
                raise Refused(f"{call}: {why}")
        # (the new process may have made calls already, or have ended)
        child = child_of(call)
        makers = self.made.get(child)
        if makers and makers[0].line == call.line:
            self.found[child] = self.child(makers.popleft(), child)

    # Memory

    def end_mmap(self, call, process, _flight):
        """Takes in a shared mapping that may be written, or that mprotect could make so. Where nobody looks at it, one that may be
        written is refused."""
        if call.failed() or call.result is None:
            return
        length = -(-call.number(1) // PAGE) * PAGE
        process.space.take(call.result, length)
        if "MAP_ANONYMOUS" in call.word(3) or call.word(4).startswith("-1"):
            return
        known = process.table.get(call.number(4), (None, False))[0]
        if known is None or known.file is MARKS or "MAP_PRIVATE" in call.word(3):
            return
        if "PROT_WRITE" in call.word(2) and self.mapped is None:
            raise Refused(f"{call}: a shared mapping can be written unseen; {LOOKED_AT}; --skip takes a file that recovery doesn't need")
        if known.writable:
            if self.mapped is not None:
                self.mapped.map(call, known.file)
            process.space.ranges.append(Range(call.result, call.result + length, known.file, call.number(5)))

    def end_munmap(self, call, process, _flight):
        if not call.failed():
            process.space.take(call.number(0), -(-call.number(1) // PAGE) * PAGE)

    def end_mprotect(self, call, process, _flight):
        """Refuses a mapping that may be written from now on, where nobody looks at it."""
        if call.failed() or "PROT_WRITE" not in call.word(2):
            return
        for it in process.space.within(call.number(0), call.number(1)):
            if self.mapped is None or not self.mapped.is_watched(it.file):
                raise Refused(f"{call}: a shared mapping of a recorded file can be written unseen; {LOOKED_AT}")

    def end_madvise(self, call, process, _flight):
        """Refuses a hole that is made in a file by a mapping of it, where nobody looks at that. Linux makes one by a mapping for reading, too,
        and where it says that a part of the range isn't mapped."""
        if "MADV_REMOVE" not in call.text:
            return
        is_own = call.name == "madvise"
        spaces = [process.space.within(call.number(0), call.number(1))] if is_own else [it.space.ranges for it in self.found.values()]
        for it in (it for these in spaces for it in these):
            if self.mapped is None or not self.mapped.is_watched(it.file):
                raise Refused(f"{call}: a hole in a mapped file is made unseen; {LOOKED_AT}")

    def end_mremap(self, call, process, _flight):
        """Follows a mapping that gets another place or size."""
        if not call.failed() and call.result is not None:
            kept = 0 if "MREMAP_DONTUNMAP" in call.word(3) else -(-call.number(1) // PAGE) * PAGE
            process.space.move(call.number(0), kept, call.result, -(-call.number(2) // PAGE) * PAGE)

    # Writes

    def landed(self, call, flight, file, start, end):
        """Refuses a change of a file where another one, of the same sectors, was made while it was in flight. Those in flight now learn of
        it."""
        for other in self.flights.values():
            other.touched.add(file)
        if end > flight.cuts.get(file, end):
            raise Refused(f"{call}: another call cut the file off at once, and which was first isn't known")
        first, last = start // SECTOR, -(-end // SECTOR)
        page, after = (first // PAGES * PAGES, -(-last // PAGES) * PAGES) if self.disk.pages else (first, last)
        for other, until in file.changed[flight.changes :]:
            if other < last and first < until:
                raise Refused(f"{call}: another call wrote the same sectors at once, and which was first isn't known")
            if other < after and page < until:
                raise Refused(f"{call}: another call wrote the same page at once, and which was first isn't known; {BY_CALLS}")
        if any(other < last and first < until for other, until in file.copied[flight.copies :]):
            raise Refused(f"{call}: another call copied the same sectors at once, and which was first isn't known")

    def end_write(self, call, process, flight):
        """Writes what a call of the write family wrote; refuses one whose end isn't known."""
        opened = flight.opened
        if opened is None:
            return
        if call.result is None and not (call.error or "").startswith("ERESTART"):
            raise Refused(f"{call}: what it wrote isn't known")
        if call.failed():
            if call.error not in NOT_BEGUN and not call.error.startswith("ERESTART"):
                raise Refused(f"{call}: a write that fails so leaves nothing that is known")
            return
        self.agrees_for(call, opened)
        data = call.data(1) if call.name in ("write", "pwrite64") else call.pieces(1)
        if call.result > len(data):
            raise Refused(f"{call}: it wrote more than it was given")
        data = data[: call.result]
        if opened.file is MARKS:
            return self.mark(call, data, flight.entries)
        flags = self.write_flags(call)
        start = self.place(call, flight, opened, flags)
        if data:
            self.put(call, flight, opened, start, data, opened.through or bool(flags & THROUGH))
        return None

    def agrees_for(self, call, opened, at=0):
        """Wants that strace names the file of a word of the call."""
        found = NAMED.match(call.word(at))
        wanted = self.marks if opened.file is MARKS else self.prefix + opened.file.name
        if not found or unhexed(found[2]) != wanted:
            raise Refused(f"{call}: strace doesn't say that it is of {shown(os.fsdecode(wanted))}")

    def write_flags(self, call):
        """The flags of pwritev2, and of pwritev none."""
        if call.name != "pwritev2":
            return set()
        text = call.word(4)
        flags = flags_of(text)
        if text != "0" and (flags - RWF or not re.fullmatch(r"[A-Z_|]+", text)):
            raise Refused(f"{call}: its flags aren't known")
        return flags

    def place(self, call, flight, opened, flags):
        """Where a write begins, and where the next one does."""
        file = opened.file
        offset = call.number(3) if call.name.startswith("pwrite") else -1
        if offset < -1 or offset == -1 and call.name in ("pwrite64", "pwritev"):
            raise Refused(f"{call}: its place can't be read")
        append = opened.append or "RWF_APPEND" in flags
        if flight.turned != opened.turned:
            raise Refused(f"{call}: another call changed the flags of the descriptor at once, so where it wrote isn't known; another try may pass")
        if append and flight.grown != file.grown or offset == -1 and flight.moved != opened.moved:
            raise Refused(f"{call}: another call moved the end or the place at once, so where it wrote isn't known")
        start = file.size if append else opened.at if offset == -1 else offset
        if offset == -1:
            opened.at, opened.moved = start + call.result, opened.moved + 1
        call.place = start
        return start

    def put(self, call, flight, opened, start, data, through):
        """Writes bytes of a file to the log, forced ones with FUA, unless the file is unlinked."""
        file = opened.file
        self.still(call, f"{shown(os.fsdecode(file.name))} is written")
        if file.unlinked:
            raise Refused(f"{call}: it is unlinked")
        self.landed(call, flight, file, start, start + len(data))
        first, sectors = self.disk.whole_pages(file.content, *file.put(start, data), opened.direct)
        self.disk.write(file, first, sectors, opened.direct)
        if through:
            self.disk.force(file, first, sectors)

    def mark(self, call, data, entries):
        """A text for the marks: lines of a number, which isn't looked at, and a name. It is a promise from where the call began on: what was
        made durable since then stands after it. `entries` is how many entries the log had then; calls in flight that began later are told of one
        more."""
        if not data.endswith(b"\n"):
            raise Refused(f"{call}: a mark is one whole line")
        for line in data[:-1].split(b"\n"):
            found = re.fullmatch(rb"\d{1,20} (.{0,480})", line)
            if not found:
                raise Refused(f"{call}: a mark is a number, a space, and a text of at most 480 bytes")
            if found[1]:
                self.still(call, "a mark is made")
                self.disk.mark(found[1], entries)
                for other in self.flights.values():
                    other.entries += other.entries > entries
                entries += 1

    def end_read(self, call, process, flight):
        """Moves the place of an opened file past what was read."""
        if flight.opened is None or call.failed() or not call.result:
            return
        if flight.moved != flight.opened.moved:
            raise Refused(f"{call}: another call moved the place at once, so where it stands isn't known")
        flight.opened.at += call.result
        flight.opened.moved += 1

    def end_preadv2(self, call, process, flight):
        if call.word(3) == "-1":
            self.end_read(call, process, flight)

    def end_lseek(self, call, process, flight):
        """Moves the place of an opened file."""
        if flight.opened is None or call.failed() or call.result is None or flight.opened.file is MARKS:
            return
        if flight.opened.at != call.moved_to():
            flight.opened.at = call.moved_to()
            flight.opened.moved += 1

    def resize(self, call, file, size, flight):
        """A file has this size now."""
        if not self.is_resized(call, file, size, flight):
            return
        if size > file.size:
            self.still(call, f"{shown(os.fsdecode(file.name))} grows")
            file.grow(size)
            return
        self.close_log(call, f"{shown(os.fsdecode(file.name))} gets shorter")
        file.changed.append((size // SECTOR, -(-file.size // SECTOR)))
        file.size = size

    def allocate(self, call, file, _start, end, flight):
        """A file gets longer by blocks that are reserved for it."""
        self.resize(call, file, end, flight)

    def note_cut(self, file):
        """A file has been given the size that it has. A call in flight may have made it longer before that, or may do it now."""
        for other in self.flights.values():
            other.cuts[file] = min(file.size, other.cuts.get(file, file.size))

    def at_path(self, call):
        """The path that the first word of a call means now, where it can be told, and the file that is there."""
        try:
            path = self.real(call, self.path(call, None, 0))
        except Refused:
            return None, None
        return path, self.files.get(self.name(path))

    def is_resized(self, call, file, size, flight):
        """Whether a file had another size than a call gives it. Refuses what another call did to its end at once."""
        if size == file.size:
            self.note_cut(file)
            return False
        self.landed(call, flight, file, min(size, file.size), max(size, file.size))
        if flight.grown != file.grown or size < flight.kept.get(file, 0):
            raise Refused(f"{call}: another call moved the end at once, and which was first isn't known")
        return True

    def end_truncate(self, call, process, flight):
        """Gives a file another size, by its descriptor or its path."""
        if call.failed():
            return
        file = flight.file
        if not call.name.startswith("f"):
            path = self.real(call, self.path(call, None, 0))
            name = self.name(path)
            self.written |= {path} if name is None else set()
            file = self.files.get(name)
            if name is not None and file is None:
                raise Refused(f"{call}: no call was seen that made {shown(os.fsdecode(name))}")
            if flight.named is not None and flight.named[1] is not file:
                raise Refused(f"{call}: another call changed names at once, and of which file it is isn't known")
            flight.changes, flight.grown, flight.copies = flight.all_changes.get(file, (0, 0, 0))
        if file is MARKS or file is None:
            return
        if call.result is None:
            raise Refused(f"{call}: what it did isn't known")
        self.resize(call, file, call.number(1), flight)

    def end_fallocate(self, call, process, flight):
        """Follows room that is reserved, and bytes that become zeros; refuses bytes that move."""
        file = flight.file
        if file is None or file is MARKS or call.error in NOT_RESERVED:
            return
        if call.failed() or call.result is None:
            raise Refused(f"{call}: what it did isn't known")
        text, start, length = call.word(1), call.number(2), call.number(3)
        flags = set() if text == "0" else set(text.split("|"))
        if flags - {"FALLOC_FL_KEEP_SIZE", "FALLOC_FL_PUNCH_HOLE", "FALLOC_FL_ZERO_RANGE", "FALLOC_FL_UNSHARE_RANGE"}:
            raise Refused(f"{call}: what it moves isn't followed")
        if "FALLOC_FL_KEEP_SIZE" not in flags:
            if start + length > file.size:
                self.allocate(call, file, start, start + length, flight)
            for other in self.flights.values():
                other.kept[file] = max(start + length, other.kept.get(file, 0))
        if flags & {"FALLOC_FL_PUNCH_HOLE", "FALLOC_FL_ZERO_RANGE"}:
            end = min(start + length, file.size)
            if end > start:
                # (O_DSYNC and O_SYNC are of writes: a hole is durable by a sync alone)
                self.put(call, flight, Opened(file, False, False, True), start, bytes(end - start), False)

    # Syncs

    def begin_sync(self, call, process, flight):
        """Notes what a sync covers as it begins: all files, or one."""
        if call.name == "sync":
            flight.sync = self.disk.begin_sync(list(self.files.values()))
            return
        flight.opened = process.table.get(call.number(0), (None, False))[0]
        flight.file = flight.opened and flight.opened.file
        if call.name == "syncfs":
            found = NAMED.match(call.word(0))
            path = unhexed(found[2]) if found else b""
            if path == self.folder or path.startswith(self.prefix):
                flight.sync = self.disk.begin_sync(list(self.files.values()))
        elif isinstance(flight.file, File):
            flight.sync = self.disk.begin_sync([flight.file])

    def end_sync(self, call, process, flight):
        """Ends a sync that began, and refuses one that failed."""
        if flight.sync is None or (call.error or "").startswith("ERESTART") or call.result is None:
            return
        if call.error in NOT_SYNCED or call.failed() and not self.covers(flight.sync):
            return
        if call.failed():
            raise Refused(f"{call}: a sync that fails leaves nothing that is known")
        if flight.opened is not None and call.name != "syncfs":
            self.agrees_for(call, flight.opened)
        self.end_synced(flight)

    def covers(self, begun):
        """Whether a sync had anything to make durable when it began."""
        return any(begun.values())

    def end_msync(self, call, process, flight):
        """Ends a sync of what is mapped, and refuses one that failed, where it began something."""
        if flight.sync is None or (call.error or "").startswith("ERESTART") or call.result is None or call.error in NOT_DONE:
            return
        if call.failed():
            raise Refused(f"{call}: a sync that fails leaves nothing that is known")
        self.end_synced(flight)

    def end_range(self, call, process, _flight):
        """A part of a file is written back by sync_file_range, which makes nothing durable."""
        if self.mentioned in call.text:
            self.agree_at_end(call, process)

    def end_synced(self, flight):
        """A sync has ended."""
        if self.ended is None:
            self.disk.end_sync(flight.sync)

    def add_sync(self, found, file, sectors):
        """Adds some sectors of a file to what a sync covers as it begins. Returns all of it."""
        found = {} if found is None else found
        these = self.disk.begin_sync([file])[file]
        found.setdefault(file, {}).update({number: it for number, it in these.items() if number in sectors})
        return found

    # Names

    def own_path(self, call, from_folder):
        """The path of a call on one name. The one named `from_folder` takes the descriptor of a folder before it."""
        return self.path(call, 0, 1) if call.name == from_folder else self.path(call, None, 0)

    def end_unlink(self, call, _process, _flight):
        """Marks a file as unlinked. The log ends there, unless the file was always empty."""
        if call.failed():
            return
        path = self.own_path(call, "unlinkat")
        name = self.name(path)
        if name is None:
            self.note_removed(call, path)
        file = self.files.get(name)
        self.others.pop(name, None)
        if file is not None and not file.unlinked:
            file.unlinked = True
            if file.most:
                self.close_log(call, f"{shown(os.fsdecode(name))} is unlinked")

    def end_rename(self, call, _process, _flight):
        """Refuses a rename of a recorded name."""
        if call.failed():
            return
        paths = self.both_paths(call, "rename")
        self.refuse_names(call, paths, "is renamed")
        self.note_renamed(call, paths)

    def end_rmdir(self, call, _process, _flight):
        """Takes a folder away: without names it doesn't count."""
        if not call.failed():
            path = self.own_path(call, "unlinkat")
            if self.name(path) is None:
                self.note_removed(call, path)

    # Names outside

    def outside(self, call, change, *words):
        """Notes a change of names where nothing is recorded."""
        try:
            change(*words)
        except links.Unknown as it:
            path = shown(os.fsdecode(it.args[0]))
            raise Refused(f"{call}: a path led through {path}, which this call changes, so where it led isn't known; leave it as it is, or the guest") from None

    def note_removed(self, call, path):
        """A name outside has gone."""
        if path == self.folder:
            raise Refused(f"{call}: the folder of the recording is taken away, and each image has it; take away what is in it, and leave it there")
        self.outside(call, self.links.removed, path, call.name == "rmdir" or "AT_REMOVEDIR" in call.text)

    def note_renamed(self, call, paths):
        """Names have changed by a rename, of which those outside count for the paths that lead through them."""
        exchange = "RENAME_EXCHANGE" in call.text
        if any(self.folder == it or self.folder.startswith(it.rstrip(b"/") + b"/") for it in paths):
            raise Refused(f"{call}: the folder of the recording, or one that it is in, is renamed")
        self.surroundings.note_renamed(paths)
        self.outside(call, self.links.renamed, *paths, exchange)
        self.move_folders(paths[0], b"\0" if exchange else paths[1])
        if exchange:
            self.move_folders(paths[1], paths[0])
            self.move_folders(b"\0", paths[1])

    def both_paths(self, call, plain):
        """The two paths of a call that ties a name to another. The one named `plain` takes no descriptors of folders."""
        return [self.path(call, *it) for it in (((None, 0), (None, 1)) if call.name == plain else ((0, 1), (2, 3)))]

    def end_link(self, call, _process, _flight):
        """Refuses a link or a symbolic link to a recorded name."""
        if call.failed():
            return
        if call.name in ("link", "linkat"):
            paths = self.both_paths(call, "link")
            self.outside(call, self.links.linked, *paths)
        else:
            at = call.name == "symlinkat"
            made = self.path(call, 1 if at else None, 2 if at else 1)
            # (each path through the link is followed anew, so one that leads in a circle, or nowhere, does no harm)
            paths = [made]
            with suppress(Refused):
                paths.append(self.real_now(call, os.path.join(os.path.dirname(made), call.data(0))))
            self.outside(call, self.links.made, made, call.data(0))
        self.refuse_names(call, paths, "gets another name")

    def refuse_names(self, call, paths, what):
        """Refuses a change of names where one of the paths is recorded."""
        for path in paths:
            name = self.name(path)
            inner = [] if name is None else [it for it in self.files if it == name or it.startswith(name + b"/")]
            if inner or name is not None and name not in self.folders or path == self.folder:
                raise Refused(f"{call}: {shown(os.fsdecode(name or path))} {what}, and names are left out; record it in a guest")

    def end_mkdir(self, call, _process, flight):
        """Takes in a folder that was made."""
        if call.failed():
            return
        path = self.own_path(call, "mkdirat")
        name = self.name(path)
        if name is not None:
            self.made_folder(call, name, flight)
        else:
            self.outside(call, self.links.made, path)

    def made_folder(self, _call, name, _flight):
        """A folder was made."""
        self.folders.add(name)

    def end_mknod(self, call, _process, flight):
        """Takes in a FIFO or a socket that was made, or an empty file, and refuses a device."""
        if call.failed():
            return
        at = call.name == "mknodat"
        name, kind = self.name(self.own_path(call, "mknodat")), call.word(2 if at else 1).split("|")[0]
        if name is None:
            return
        if kind in ("S_IFIFO", "S_IFSOCK"):
            self.made_other(call, name, Other("fifo" if kind == "S_IFIFO" else "socket"), flight)
        elif kind == "S_IFREG":
            self.make(call, name, flight)
        else:
            raise Refused(f"{call}: such a file isn't followed")

    def end_bind(self, call, process, flight):
        """Takes in the name of a socket."""
        found = re.search(r'\{sa_family=AF_UNIX, sun_path=("[^"]*"(?:\.\.\.)?)\}', call.word(1))
        if call.failed() or not found:
            return
        if call.astray:
            raise Refused(f"{call}: another thread changed the folder of the process at once, and which was first isn't known")
        head, tail = os.path.split(os.path.join(process.folder[0], string(found[1], call)))
        name = self.name(os.path.join(self.real(call, head), tail))
        if name is not None:
            self.made_other(call, name, Other("socket"), flight)

    def made_other(self, _call, name, other, _flight):
        """A name was made that is of no file and no folder: without names it doesn't count."""
        self.others[name] = other

    def end_beside(self, _call, _process, _flight):
        """A file has other permissions, owners, times or attributes: without names these don't count."""
