"""Sees where one call uses the number of a descriptor, and another gives that number to something else at once.

Which file the first call was of isn't known then, and it is refused where one of the two is recorded. dup2 and dup3 give a number that
may be taken. Each other call gives one that was free, so where it was of something else it was closed before. Where that close
began after the first call had ended, the first call was of what the number was before.
"""
import re
from dataclasses import dataclass

from commands.record.calls import Refused, brief, named
from commands.record.files import MARKS, File
from commands.record.known import COPIES, KINDS, MOVES, OPENS, READS, SYNCS, WRITES

# Which of the words of calls are the numbers that they use: of all that name a file by its descriptor.
FIRST = {*WRITES, *READS, *MOVES, *SYNCS, "preadv2", "fchdir", "fchmod", *(it for kind in ("dup", "fcntl", "ioctl") for it in KINDS[kind])}
USED = {**dict.fromkeys(FIRST, (0,)), **dict.fromkeys(KINDS["mmap"], (4,)), **{name: (it[0], it[2]) for name, it in COPIES.items()}}
# Calls on a folder by its descriptor.
BELOW = {**dict.fromkeys(("renameat", "renameat2", "linkat"), (0, 2)), "symlinkat": (1,)}
BELOW |= dict.fromkeys(("openat", "openat2", "unlinkat", "mkdirat", "mknodat", "fchmodat", "fchmodat2"), (0,))
# Those that give a number that may be taken, and those that give several in their words.
TAKES = ("dup2", "dup3")
SEVERAL = {"pipe", "pipe2", "socketpair", "recvmsg", "recvmmsg"}
NUMBER = re.compile(r"0x[0-9a-f]{1,8}\b|\d{1,10}\b")


@dataclass
class Use:
    """A call that used a number, and whether what it had that number for is recorded."""

    call: object
    counts: bool


def numbers_used(call):
    """The numbers of the descriptors that a call uses."""
    found = (NUMBER.match(call.words[at]) for at in USED.get(call.name) or BELOW.get(call.name, ()) if at < len(call.words))
    return {int(it[0], 0) for it in found if it}


class Numbers:
    """The numbers that calls in flight use and give."""

    def __init__(self, tracing):
        self.tracing = tracing

    def counts(self, opened):
        """Whether it is recorded, or a pipe that a copy may take from, or the marks."""
        return opened is not None and (opened.file is MARKS or isinstance(opened.file, File) or self.tracing.pipes.of(opened) is not None)

    def beside(self, call, table):
        """The calls in flight of those that share a table of descriptors with a call."""
        return [it for number, it in self.tracing.flights.items() if it.table is table and number != call.process]

    def begin(self, call, process, flight):
        """A call begins."""
        flight.table, flight.numbers = process.table, numbers_used(call)
        if call.name == "close":
            # (who used the number before, used it for what is closed now; but for dup2, which needs no free number)
            for it in self.beside(call, flight.table):
                if it.call.name not in TAKES:
                    it.used.pop(call.number(0), None)

    def used(self, call, flight):
        """A call ends, and isn't followed yet: refuses one whose number another call gave to something else since it began."""
        beside = self.beside(call, flight.table) if flight.numbers else []
        if not beside and not flight.given or call.error is not None:
            return
        for number in flight.numbers:
            its = (flight.table.opened(number), flight.opened, flight.other)
            use = Use(call, self.tracing.mentioned in call.text or any(map(self.counts, its)))
            if number in flight.given and (use.counts or flight.given[number].counts):
                self.refuse(call, number, flight.given[number].call)
            for it in beside:
                it.used[number] = use

    def given(self, call, flight):
        """A call has ended, and was followed: refuses one that gave a number to something else that another call used since it began."""
        beside = self.beside(call, flight.table)
        if not beside and not flight.used:
            return
        for number, counts in self.numbers_given(call, flight):
            use = flight.used.get(number)
            if use is not None and (counts or use.counts):
                self.refuse(call, number, use.call)
            for it in beside:
                if number in it.numbers:
                    it.given[number] = Use(call, counts)

    def over(self, call, flight):
        """A process ended within a call, which may have been made."""
        if flight is not None and call.name in TAKES:
            number = call.number(1)
            use = flight.used.get(number)
            if use is not None and (use.counts or self.counts(flight.table.opened(call.number(0)))):
                self.refuse(call, number, use.call)

    def numbers_given(self, call, flight):
        """The numbers that a call gave, each with whether what it gave it to is recorded."""
        if call.name in self.tracing.handled and not call.failed() and call.result is not None:
            if call.name in (*OPENS, *KINDS["dup"]) or call.name in KINDS["fcntl"] and call.word(1).startswith("F_DUPFD"):
                yield call.result, self.counts(flight.table.opened(call.result)) or self.tracing.mentioned in call.text
            return
        text = brief(call.text)
        for number, _, _ in named(text if call.name in SEVERAL else re.split(r"\) += ", text)[-1]):
            if number.isdigit():
                yield int(number), self.counts(flight.table.opened(int(number)))

    def refuse(self, call, number, other):
        raise Refused(f"{call}: another call was made at once, so which file descriptor {number} was of isn't known; another try may pass: {other}")
