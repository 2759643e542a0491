"""A program that stays: it is started once, is told each image by a line, `PATH MARKS`, and answers by one, a status of 0 to 255.

What it prints on standard error is kept as what it says of an image. Where it ends in place of an answer, or takes too long, it is started
anew for the next image.

An image that is run again is judged by a process that judged none before. A program may have such ones ready, since a copy of a process costs
less than a start: before its first image it makes a copy of itself, which says so by a line, `copy PROCESS`, and judges. On an empty line this
one ends, and the next copy of the first process says the same. Whether it is another one, of that process, and nothing is left of the one
before, is looked at here. Else the program is started anew.
"""
import os
import re
import select
import time
from contextlib import suppress

from commands.shared.faults import Refusal
from commands.shared.program import RESET, Ended, Gone, Said, children, end_all, parent_of
from commands.shared.verdicts import EXIT, TIMED_OUT, Verdict

ANSWER, COPY = re.compile(rb"(0|[1-9]\d{0,2})\n"), re.compile(rb"copy ([1-9]\d{0,9})\n")
LONGEST = 64
# Nothing that says of which image a run is stands in the environment of a program that is given many.
HIDDEN = (b"CRASH_CUT", b"CRASH_CHOICE", b"CRASH_MARKS", b"CRASH_MARK", b"CRASH_IMAGE")


class Stayed:
    """A program, which is started when it is asked."""

    def __init__(self, words, surroundings, seconds, hang_up, nothing):
        self.words, self.seconds, self.hang_up, self.nothing = words, seconds, hang_up, nothing
        self.surroundings = {name: value for name, value in surroundings.items() if name not in HIDDEN}
        self.process, self.is_new, self.copy, self.unread = None, True, None, b""

    def start(self):
        """Starts the program, with a pipe for each of its three files."""
        (asked, self.asking), (self.answers, answering), (saying, said) = os.pipe2(os.O_CLOEXEC), os.pipe2(os.O_CLOEXEC), os.pipe2(os.O_CLOEXEC)
        actions = [(os.POSIX_SPAWN_DUP2, asked, 0), (os.POSIX_SPAWN_DUP2, answering, 1), (os.POSIX_SPAWN_DUP2, said, 2)]
        try:
            self.process = os.posix_spawnp(self.words[0], self.words, self.surroundings, file_actions=actions, setsid=True, setsigmask=[], setsigdef=RESET)
        except (OSError, ValueError) as error:
            raise Refusal(f"the program can't be run: {error}") from None
        finally:
            for it in (asked, answering, said):
                os.close(it)
        self.saying, self.ends = saying, os.pidfd_open(self.process)
        self.copy, self.unread, self.poller = None, b"", select.poll()
        os.set_blocking(self.saying, False)
        for it in (self.answers, self.saying, self.hang_up, self.ends):
            self.poller.register(it, select.POLLIN)

    def end(self):
        """Ends the program with all that it started. Returns its status, as `wait` gives it, and whether something else was left."""
        if self.process is None:
            return 0, False
        process, self.process, self.is_new = self.process, None, True
        try:
            return end_all(process)
        finally:
            for it in (self.asking, self.answers, self.saying, self.ends):
                os.close(it)

    def begin_anew(self, by_copy):
        """Has the next image judged by a process that judged none: the program is started anew, or makes a copy where that is enough."""
        if not (by_copy and self.has_copy()):
            self.end()

    def has_copy(self):
        """Whether a program that judged images makes a copy of what it was before them. Nothing may be left of the copy before."""
        if self.copy is None or self.process is None:
            return False
        said, before = Said(self.saying), self.copy
        self.ask(b"\n")
        found = COPY.fullmatch(self.line(said)[0])
        said.read_rest()
        self.copy, self.is_new = int(found[1]) if found else None, True
        return self.copy not in (None, before) and parent_of(self.copy) == self.process and children() == [self.process]

    def ask(self, line):
        with suppress(BrokenPipeError):
            os.write(self.asking, line)

    def test_silent(self):
        """Refuses what answers before it is asked, or by more: it would be taken for the answer of the next image."""
        if self.unread or select.select([self.answers], [], [], 0)[0] and self.is_there():
            raise Refusal("a program that stays answers each image by one line, and this one by more")

    def is_there(self):
        """Whether there is something to read, and not only the end of the program."""
        self.unread = os.read(self.answers, LONGEST)
        return bool(self.unread)

    def judge(self, path, marks):
        """Asks the program of an image. Returns what it came to."""
        was_started = self.process is None
        if was_started:
            self.start()
        else:
            self.test_silent()
        said, self.is_new = Said(self.saying), False
        self.ask(b"%s %d\n" % (path, marks))
        line, is_in_time = self.line(said)
        found = COPY.fullmatch(line) if was_started else None
        if found:
            self.copy = int(found[1])
            line, is_in_time = self.line(said)
        said.read_rest()
        if line.endswith(b"\n") or len(line) >= LONGEST:
            answer = ANSWER.fullmatch(line)
            if not answer or int(answer[1]) > 255:
                raise Refusal(f"a program that stays answers each image by a number of 0 to 255 on a line, and this one by {line!r}")
            return Ended(Verdict(EXIT, int(answer[1])), said.kept, said.more, False)
        status, left = self.end()
        verdict = Verdict.of_status(status) if is_in_time else TIMED_OUT
        if verdict.is_good():
            raise Refusal(f"a program that stays answers each image by a line, and this one ended without one{': ' if line else ''}{line.decode(errors='replace')}")
        return Ended(verdict, said.kept, said.more, left and is_in_time)

    def taken(self):
        """Takes a line of what was read, or as much as one may have. Returns nothing where there is none yet."""
        line, end, rest = self.unread.partition(b"\n")
        if not end and len(line) < LONGEST:
            return b""
        self.unread = rest
        return line + end

    def line(self, said):
        """Waits for a line, or for the end of the program, and reads what is said meanwhile. Returns what there is of the line, and whether
        one of both came in time."""
        deadline = time.monotonic() + self.seconds
        while not (found := self.taken()):
            wait = deadline - time.monotonic()
            ready = {file for file, _event in self.poller.poll(max(0, 1000 * wait))}
            if self.hang_up in ready:
                raise Gone
            if self.saying in ready and not said.read():
                self.poller.unregister(self.saying)
            if self.answers in ready:
                more = os.read(self.answers, LONGEST)
                self.unread += more
                if not more:
                    self.poller.unregister(self.answers)
            elif self.ends in ready:
                return self.unread, True
            elif wait <= 0:
                return self.unread, False
        return found, True
