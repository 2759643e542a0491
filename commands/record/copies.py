"""Follows copies that the kernel makes from file to file: copy_file_range, sendfile, splice, tee, and reflinks.

A copy into a recorded file is a write of what was copied, which no line of strace has. So it has to be known what the source held:
a recorded file is what the calls so far made it, of a file from outside `outside.py` says it, and of a pipe `pipes.py`. Where the source, or the place in
it, isn't known, or another call changes it at once, the copy is refused. No copy makes anything durable, whatever flags its file
has.
"""
import os
import re

from commands.record.calls import NAMED, Refused, shown, unhexed
from commands.record.disk import SECTOR
from commands.record.files import MARKS, File
from commands.record.known import COPIES, NOT_COPIED, READS
from commands.record.outside import ADVICE, Unknown

# (an ioctl has no places in words of their own)
CLONES = re.compile(r"\bFICLONE(RANGE)?\b")
RANGE = re.compile(r"\{src_fd=(\d+)(?:<[^>]*>(?:\(deleted\))?)?, src_offset=(\d+), src_length=(\d+), dest_offset=(\d+)\}")
PLACE = re.compile(r"\[(\d{1,19})\](?: => \[\d{1,20}\])?")
# The most bytes that one call copies.
MOST = 1 << 34


class Copying:
    """What is followed of copies. It is a part of `Tracing`."""

    def begin_copy(self, call, process, flight):
        """A copy begins: notes what it is from and to, and what stands there."""
        from_, to = self.ends_of(call)
        flight.source = process.table.opened(from_)
        flight.opened = process.table.get(to, (None, False))[0]
        flight.other = process.table.others.get(to, (None, False))[0]
        flight.file = flight.opened and flight.opened.file
        if flight.source is not None:
            flight.source_moved = flight.source.moved
            flight.source_changes = len(flight.source.file.changed) if isinstance(flight.source.file, File) else 0

    def ends_of(self, call):
        """The numbers of the descriptors that a copy is from and to."""
        if call.name != "ioctl":
            from_, _, to, _ = COPIES[call.name]
            return call.number(from_), call.number(to)
        found = RANGE.fullmatch(call.word(2))
        return int(found[1]) if found else call.number(2), call.number(0)

    def end_copy(self, call, process, flight):
        """Moves the places that a copy moves, and writes what it wrote to a recorded file."""
        if flight.opened is None and flight.source is None and flight.other is None:
            return
        if call.failed() or call.result is None:
            self.not_copied(call, flight)
            return
        _, at, to, place = COPIES[call.name]
        start = flight.start = self.place_in(call, flight.source, flight.source_moved, at)
        if flight.opened is None:
            self.place_in(call, flight.other, flight.moved, place)
            return
        if call.result:
            self.agrees_for(call, flight.opened, to)
            data, into = self.copied(call, flight, start, call.result), self.place_in(call, flight.opened, flight.moved, place)
            if flight.source is not None and flight.source.file is flight.file and abs(start - into) < call.result:
                raise Refused(f"{call}: it copied to what it copied from, and which bytes were first isn't known")
            self.copy_to(call, flight, into, data, start)

    def not_copied(self, call, flight):
        """Refuses a copy to a recorded file of which it isn't known that nothing was copied."""
        began = call.error is None or call.error not in NOT_COPIED and not call.error.startswith("ERESTART")
        if flight.opened is not None and (call.result is None and call.error is None or began):
            raise Refused(f"{call}: what it wrote isn't known")

    def place_in(self, call, opened, moved, at):
        """The place in a file that a copy begins at, or nothing where that isn't known. Moves the place of the descriptor past what was
        copied, unless the word `at` has a place."""
        given = "NULL" if at is None else call.word(at)
        if given != "NULL":
            found = PLACE.fullmatch(given)
            if not found:
                raise Refused(f"{call}: its place can't be read")
            return int(found[1])
        if opened is None or call.name == "tee":
            return None
        start = opened.at if opened.moved == moved else None
        if start is None and (opened.file is MARKS or isinstance(opened.file, File)):
            raise Refused(f"{call}: another call moved the place at once, so where it stands isn't known")
        opened.at, opened.moved = None if start is None else start + call.result, opened.moved + 1
        return start

    def copied(self, call, flight, start, length):
        """The bytes that a copy read."""
        from_ = COPIES[call.name][0] if call.name != "ioctl" else None
        source = flight.source and flight.source.file
        if length > MOST:
            raise Refused(f"{call}: it copied more than any file has")
        if isinstance(source, File):
            return self.copied_of(call, flight, source, start, length)
        path, gone = self.path_outside(call, source, from_)
        if path in self.pipes.found:
            return self.pipes.taken(call, path)
        if source is MARKS or path is None or not path.startswith(b"/") or self.name(path) in self.others:
            raise Refused(f"{call}: what came from there isn't known; that is for the guest")
        if start is None:
            raise Refused(f"{call}: from where in {shown(os.fsdecode(path))} it copied isn't known; {ADVICE}")
        try:
            if gone:
                raise Unknown("it is unlinked")
            return self.surroundings.read(path, start, length)
        except Unknown as why:
            raise Refused(f"{call}: what {shown(os.fsdecode(path))} held isn't known: {why}; {ADVICE}") from None

    def path_outside(self, call, source, from_):
        """The path of a file that isn't recorded, as strace has it in the call, and whether it is unlinked."""
        found = NAMED.match(call.word(from_)) if from_ is not None else None
        if found:
            return unhexed(found[2]), bool(found[3])
        return (None if source is None or source is MARKS or from_ is not None else source.path), False

    def copied_of(self, call, flight, source, start, length):
        """The bytes that were copied of a recorded file, which no other call changed meanwhile."""
        if start + length > source.size:
            raise Refused(f"{call}: it copied more than {shown(os.fsdecode(source.name))} has by the calls that were seen")
        if self.mapped is not None and self.mapped.is_watched(source) and len(self.found) > 1:
            raise Refused(f"{call}: what other threads and processes store at once in the mapped file that it copied isn't known")
        first, last = start // SECTOR, -(-(start + length) // SECTOR)
        if any(other < last and first < until for other, until in source.changed[flight.source_changes :]):
            raise Refused(f"{call}: another call wrote at once what it copied, and which was first isn't known")
        return bytes(source.content[start : start + length])

    def copy_to(self, call, flight, place, data, start):
        """Writes what was copied to a recorded file, and notes where it came from: who changes that at once is refused later."""
        if flight.file is MARKS or flight.opened.append:
            raise Refused(f"{call}: a copy to there isn't followed")
        self.put(call, flight, flight.opened, place, data, False)
        if isinstance(flight.source and flight.source.file, File):
            flight.source.file.copied.append((start // SECTOR, -(-(start + len(data)) // SECTOR)))

    def end_clone(self, call, flight):
        """Follows a reflink, by ioctl. A length of 0 is all that is left of the source."""
        source, found = flight.source and flight.source.file, RANGE.fullmatch(call.word(2))
        start, length, place = (int(found[it]) for it in (2, 3, 4)) if found else (0, 0, 0)
        if not isinstance(source, File) and not length:
            raise Refused(f"{call}: how much of the file it took isn't known; {ADVICE}")
        length = length or source.size - start
        data = self.copied(call, flight, start, length) if length > 0 else b""
        if data:
            self.copy_to(call, flight, place, data, start)

    # What isn't recorded

    def move_other(self, call, flight):
        """Moves the place of a descriptor of what isn't recorded, as the call did."""
        opened = flight.other
        if call.failed() or call.result is None:
            return
        given = call.word(3) if call.name in ("preadv2", "pwritev2") else "-1"
        if call.name in ("lseek", "_llseek"):
            opened.at, opened.moved = call.moved_to(), opened.moved + 1
        elif call.name in (*READS, "write", "writev") or given == "-1" and call.name in ("preadv2", "pwritev2"):
            known = opened.at is not None and flight.moved == opened.moved and not (opened.append and "write" in call.name)
            opened.at, opened.moved = opened.at + call.result if known else None, opened.moved + 1
