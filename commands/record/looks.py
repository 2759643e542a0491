"""Looks at mapped files while the calls of a program wait, beside strace.

What a program stores in a mapping is no call. So the files that it has mapped are read at each of its calls, and what changed since
the last one was stored in between. It has to be read before the call goes on: what a sync makes durable is what stood there when it
began, and strace's text says it only afterwards. strace writes the begin of each line before it lets the call go on. By a filter
of seccomp this very write waits (`listening.py`), and with it the call. So the place of a look in strace's text is its order. Where there are several threads or processes a sync and a write are looked
at before they end, too: what another one stored meanwhile may be on the disk before what they make durable.

Looks are kept in a file of records: a kind, the place in strace's text, the number of a file, a place in it, and bytes.

    l   a look, before the call whose line begins there, or within a line before the call ends; past the text, after all
    p   a page of that look that isn't what it was: what it holds now, less than a page at the end of the file or past it
    m   the call at that line maps this file, which is held open from now on
    w   from the next look on the file is looked at
    n   the call at that line maps a file that can't be held open; why
    s   after that look nothing is looked at: the files have more than MOST bytes
    f   a process wrote where strace does; its number

`mapped.py` reads them.
"""
import errno
import fcntl
import os
import re
import select
import socket
import struct
import subprocess
import sys
from contextlib import suppress
from pathlib import Path

from commands.record import known
from commands.record import listening
from commands.record.calls import Refused, hexed, unhexed

# The kernel writes pages; a file is read in larger pieces.
PAGE, PIECE = 4096, 1 << 18
# How many bytes of mapped files, holes left out, are looked at at each call.
MOST = 64 << 20
RECORD = struct.Struct("<cQIQI")
# struct seccomp_notif and seccomp_notif_resp, and what is asked of a listener with them.
QUESTION, ANSWER = struct.Struct("@QIIiIQ6Q"), struct.Struct("@QqiI")
TAKE, GIVE = 0xC0502100, 0xC0182101
GO_ON = 1
# Has the kernel go over to who waits at once (Linux 6.6). Without it each turn takes long where the machine is busy.
FLAGS, AT_ONCE = 0x40082104, 1
# The longest part of a piece of strace's text that is read.
TEXT = 1 << 20
BEGUN = re.compile(rb"(?:\A|\n)(\d+) +(\w+)\(")
RESUMED = re.compile(rb"(?:\A|\n)(\d+) +<\.\.\. (\w+) resumed>")
MAKES = {it.encode() for it in known.MAKES}
ADVISES = {it.encode() for it in known.KINDS["madvise"]}
ENDS = {it.encode() for it in (*known.SYNCS, "msync", *known.WRITES)}
MAPS = re.compile(rb"MAP_SHARED[^,]*, (\d+)<((?:\\x[0-9a-f]{2})*)>")
WITHOUT = (
    "a setting without mappings (GDBM_NOMMAP of gdbm, TDB_NOMMAP of tdb, a map size of 0 of Kyoto Cabinet and Tokyo Cabinet, LMDB without MDB_WRITEMAP); the guest"
)


class Held:
    """A mapped file that is held open: its number, and its pieces as they were at the last look."""

    def __init__(self, number, descriptor):
        self.number, self.descriptor, self.is_watched, self.pieces = number, descriptor, False, {}

    def data(self):
        """Yields the numbers of the pieces that have data."""
        size, at, last = os.fstat(self.descriptor).st_size, 0, -1
        while at < size:
            try:
                at = os.lseek(self.descriptor, at, os.SEEK_DATA)
                end = os.lseek(self.descriptor, at, os.SEEK_HOLE)
            except OSError as error:
                if error.errno != errno.ENXIO:
                    raise
                return
            for last in range(max(at // PIECE, last + 1), -(-end // PIECE)):
                yield last
            at = end

    def changed(self):
        """Yields the pages that aren't what they were, each with its place."""
        found = {number: os.pread(self.descriptor, PIECE, PIECE * number) for number in self.data()}
        for number in sorted({*found, *self.pieces}):
            new, old = found.get(number, b""), self.pieces.get(number, b"")
            if new == old:
                continue
            for at in range(0, max(len(new), len(old)), PAGE):
                page, before = new[at : at + PAGE], old[at : at + PAGE]
                if page != before and page.rstrip(b"\0") != before.rstrip(b"\0"):
                    yield PIECE * number + at, page
        self.pieces = found


class Looks:
    """Takes the looks of one recording. `leaves_out` says which names in the folder aren't recorded."""

    def __init__(self, folder, calls, out, leaves_out):
        self.calls, self.out, self.leaves_out = calls, out, leaves_out
        self.prefix, self.mentioned = os.fsencode(folder) + b"/", hexed(os.fsencode(folder) + b"/").encode()
        self.held, self.strace, self.memory, self.text, self.is_ended = {}, None, None, None, False
        # the name of the call that began last, and whether there was ever more than one thread
        self.begun, self.are_several = b"", False

    def note(self, kind, at, number=0, place=0, data=b""):
        self.out.write(RECORD.pack(kind, at, number, place, len(data)) + data)

    def serve(self, listener, strace):
        """Answers each question of the kernel, until strace has ended."""
        self.strace = strace
        with suppress(OSError):
            fcntl.ioctl(listener, FLAGS, AT_ONCE)
        ended, waiting = os.pidfd_open(strace), select.poll()
        waiting.register(listener, select.POLLIN)
        waiting.register(ended, select.POLLIN)
        while True:
            ready = dict(waiting.poll())
            if ready.get(listener, 0) & select.POLLIN:
                self.answer(listener)
            elif ended in ready:
                break
            elif listener in ready:
                # (nobody has the filter any more)
                waiting.unregister(listener)
        os.close(ended)
        if self.held:
            self.look(os.stat(self.calls).st_size)

    def answer(self, listener):
        """Answers one question: whatever is written is, once it has been looked at."""
        try:
            question = QUESTION.unpack(fcntl.ioctl(listener, TAKE, bytes(QUESTION.size)))
        except (FileNotFoundError, InterruptedError):
            return
        if question[1] == self.strace:
            self.writes(*question[7:9])
        else:
            self.note(b"f", os.stat(self.calls).st_size, question[1])
        try:
            fcntl.ioctl(listener, GIVE, ANSWER.pack(question[0], 0, 0, GO_ON))
        except FileNotFoundError:
            return
        except OSError:
            raise Refused(f"mapped files can't be looked at: it wants Linux 5.5 or later; {WITHOUT}") from None

    def writes(self, address, length):
        """strace is about to write a piece of its text. Looks where a call begins in it, or where one ends that may make something
        durable."""
        if self.memory is None:
            self.open()
        piece, start = os.pread(self.memory, min(length, TEXT), address), os.fstat(self.text).st_size
        if self.are_several and piece[:1] == b")" and self.begun in ENDS:
            self.look(start)
        for found in RESUMED.finditer(piece) if self.are_several else ():
            if found[2] in ENDS:
                self.look(start + found.start(1))
        for found in BEGUN.finditer(piece):
            self.look(start + found.start(1))
            self.begins(start + found.start(1), int(found[1]), found[2], piece[found.start() :])

    def begins(self, at, process, name, text):
        """A call begins: one that maps a file, that has a mapping become writable or makes a hole by it, or that makes another process."""
        self.begun = name
        self.are_several |= name in MAKES
        if name in (b"mmap", b"mmap2", b"old_mmap"):
            self.hold(at, process, text)
        elif name in (b"mprotect", b"pkey_mprotect") and b"PROT_WRITE" in text or name in ADVISES and b"MADV_REMOVE" in text:
            for it in self.held.values():
                self.watch(at, it)

    def open(self):
        """Opens the memory of strace, which before it is run is that of another program, and its text."""
        self.text = os.open(self.calls, os.O_RDONLY)
        if not os.path.samestat(os.fstat(self.text), os.stat(f"/proc/{self.strace}/fd/{listening.NUMBER}")):
            raise Refused("mapped files can't be looked at: strace has its text elsewhere than was meant")
        try:
            self.memory = os.open(f"/proc/{self.strace}/mem", os.O_RDONLY)
        except OSError as error:
            raise Refused(f"mapped files can't be looked at: the memory of strace can't be read ({error.strerror}); {WITHOUT}") from None

    def look(self, at):
        """Looks at all files that may be written in memory."""
        watched = [it for it in self.held.values() if it.is_watched]
        if not watched or self.is_ended:
            return
        self.note(b"l", at)
        for it in watched:
            for place, page in it.changed():
                self.note(b"p", at, it.number, place, page)
        if sum(len(piece) for it in watched for piece in it.pieces.values()) > MOST:
            self.is_ended = True
            self.note(b"s", at)

    def hold(self, at, process, text):
        """A call maps a file: where it is a recorded one, and stores are seen by others, the file is held open from here on."""
        found = MAPS.search(text)
        if not found or not found[2].startswith(self.mentioned) or self.leaves_out(unhexed(found[2].decode())[len(self.prefix) :]):
            return
        try:
            # (what waits at its call has the descriptor still)
            descriptor = os.open(f"/proc/{process}/fd/{int(found[1])}", os.O_RDONLY | os.O_CLOEXEC)
        except OSError as error:
            return self.note(b"n", at, data=error.strerror.encode())
        this = os.fstat(descriptor)
        known = self.held.setdefault((this.st_dev, this.st_ino), Held(len(self.held), descriptor))
        if known.descriptor != descriptor:
            os.close(descriptor)
        self.note(b"m", at, known.number)
        if b"PROT_WRITE" in text:
            self.watch(at, known)
        return None

    def watch(self, at, held):
        """From the next look on a file is looked at."""
        if not held.is_watched:
            held.is_watched = True
            self.note(b"w", at, held.number)

    def close(self):
        for it in (self.memory, self.text, *(it.descriptor for it in self.held.values())):
            if it is not None:
                os.close(it)


def started(words, environment):
    """Starts strace with a filter. Returns it, and the listener."""
    mine, other = socket.socketpair()
    script = str(Path(__file__).with_name("listening.py"))
    with mine, other:
        command = [sys.executable, "-I", "-S", "-B", script, str(other.fileno()), *words]
        running = subprocess.Popen(command, env=environment, pass_fds=[other.fileno()])
        other.close()
        said, given, _, _ = socket.recv_fds(mine, 1000, 1)
    if not given:
        running.wait()
        why = said.decode(errors="replace") or "the process that is to become strace ended"
        raise Refused(f"mapped files can't be looked at, since the kernel has no listener for it: {why}; {WITHOUT}")
    return running, given[0]
