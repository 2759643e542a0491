"""Follows what goes through pipes that the program makes, where its calls show it.

A pipe gives its bytes in the order in which they were written. So what a copy took from it is known by how much was read before, where
each byte was written by a call whose bytes are known: write and writev, and copies of files. It isn't known, and such a copy is
refused, where two calls wrote at once or another one read at once, of a pipe of packets, and where a descriptor of it goes ways that
aren't followed. Of a pipe that no call was seen to make nothing is known.
"""
import re
from collections import deque

from commands.record.calls import Refused, hexed, named
from commands.record.files import Opened
from commands.record.known import COPIES, HARMLESS, NOT_BEGUN, READS, WRITES
from commands.record import outside

# What a line has that names a pipe.
PIPE = hexed(b"pipe:")
# Calls that hand descriptors over, besides those that are followed.
HANDS_OVER = "SCM_RIGHTS"


class Pipe:
    """A pipe: what was written to it and isn't read, how much was written and read in all, and who writes and reads now."""

    def __init__(self):
        self.unknown, self.pieces, self.written, self.read, self.writer = None, deque(), 0, 0, None
        # (each reader has the turn at which it began, and whether it was alone then)
        self.readers, self.turn = {}, 0

    def put(self, data, length):
        """So many bytes were written, which `data` answers."""
        self.pieces.append((self.written, length, data))
        self.written += length

    def take(self, length):
        """So many bytes were read."""
        self.read += length
        while self.pieces and self.pieces[0][0] + self.pieces[0][1] <= self.read:
            self.pieces.popleft()

    def next(self, length):
        """The next bytes, or nothing where they aren't known: of a write in flight any part may be there."""
        found = b"".join(data()[:size][max(self.read - start, 0) :] for start, size, data in self.pieces)
        if len(found) < length and self.writer is not None and self.writer.name in ("write", "writev"):
            found += written(self.writer)[max(self.read - self.written, 0) :]
        return found[:length] if len(found) >= length else None


def written(call):
    """The bytes that a write was given."""
    return call.data(1) if call.name == "write" else call.pieces(1)


class Pipes:
    """The pipes of a program that is followed, by what strace calls them."""

    def __init__(self, tracing):
        self.tracing, self.found = tracing, {}

    def of(self, opened):
        """The pipe that was opened, or nothing."""
        return self.found.get(getattr(opened.file, "path", None)) if opened is not None else None

    def ends(self, call, flight):
        """The pipes that a call reads from and writes to."""
        if call.name in COPIES:
            return self.of(flight.source), self.of(flight.other)
        pipe = self.of(flight.other)
        return (pipe, None) if call.name in (*READS, "preadv2") else (None, pipe) if call.name in WRITES else (None, None)

    def lose(self, call, why):
        """What goes through the pipes that a line names isn't known from now on."""
        for _, path, _ in named(call.text):
            if path in self.found:
                self.found[path].unknown = why

    def begin(self, call, flight):
        """A call begins."""
        reader, writer = self.ends(call, flight)
        if reader is not None:
            reader.turn += 1
            reader.readers[call.process] = reader.turn, not reader.readers
        if writer is not None:
            if writer.writer is not None:
                writer.unknown = "two calls wrote to it at once"
            writer.writer = call
        if self.found and PIPE in call.text:
            is_other = call.name not in self.tracing.handled and call.name not in HARMLESS
            if is_other or HANDS_OVER in call.text or call.name in WRITES and writer is None or "O_DIRECT" in call.text:
                self.lose(call, f"{call.name} isn't followed there")

    def end(self, call, process, flight):
        """A call has ended, and what it copied is known already."""
        if call.name in ("pipe", "pipe2") and re.search(r"\) += 0$", call.text):
            self.make(call, process)
            return
        reader, writer = self.ends(call, flight)
        done = call.result if not call.failed() else 0
        if writer is not None:
            self.fill(call, flight, writer, done)
        if reader is not None:
            reader.readers.pop(call.process, None)
            reader.turn += 1
            if done is None:
                reader.unknown = "how much a call read isn't known"
            elif call.name != "tee":
                reader.take(done)
        if self.found and HANDS_OVER in call.text:
            self.lose(call, f"{call.name} isn't followed there")

    def make(self, call, process):
        """A pipe was made, with two descriptors."""
        for number, path, _ in named(call.text):
            self.found[path] = Pipe()
            process.table.put(int(number), Opened(outside.File(path), False, False, True), "O_CLOEXEC" in call.text)
        if "O_DIRECT" in call.text:
            self.lose(call, "it is one of packets")

    def fill(self, call, flight, pipe, done):
        """A call has written `done` bytes to a pipe, or nobody knows how many where that is None."""
        pipe.writer = None if pipe.writer is call else pipe.writer
        if done is None or call.failed() and call.error not in NOT_BEGUN and not call.error.startswith("ERESTART"):
            pipe.unknown = "what a call wrote isn't known"
        elif done and call.name in COPIES:
            try:
                data = self.tracing.copied(call, flight, flight.start, done)
            except Refused:
                pipe.unknown = "what was copied into it isn't known"
                data = b""
            pipe.put(lambda: data, done)
        elif done:
            pipe.put(lambda: written(call), done)

    def over(self, call, flight):
        """A process has ended within a call."""
        for pipe in self.ends(call, flight) if flight is not None else ():
            if pipe is not None:
                pipe.unknown = "a process ended while it read or wrote it"

    def taken(self, call, path):
        """The bytes that a copy took from a pipe. The copy has ended, and they aren't read yet."""
        pipe = self.found[path]
        turn, is_alone = pipe.readers.get(call.process, (None, False))
        why = pipe.unknown or (None if is_alone and turn == pipe.turn else "another call read from it at once")
        data = pipe.next(call.result) if why is None else None
        if data is None:
            raise Refused(f"{call}: what came through the pipe isn't known: {why or 'not all of it was seen to be written'}; that is for the guest")
        return data
