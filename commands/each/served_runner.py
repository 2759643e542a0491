"""A runner whose images are served: it tells the server which one is next, lets the program judge it, and asks at which sectors it looked."""
import os
import shutil

from commands.each.records import ranges
from commands.each.runner import ALONE, COMPARED, FIRST, Runner
from commands.each.served_server import ENDS, KEPT, RECOVERED, TOLD, answered, received, sent
from commands.each.stayed import Stayed
from commands.shared.faults import Refusal
from commands.shared.program import run
from commands.shared.verdicts import EXIT

GONE = "the server of the images has ended, or its mount is gone"


class ServedRunner(Runner):
    """A runner with a folder of its own on the mount."""

    def __init__(self, folder, given, channel, mount):
        self.number = int(os.path.basename(folder))
        for number, it in enumerate(mount.channels):
            if number != self.number:
                it.close()
        self.server = mount.channels[self.number]
        super().__init__(given, channel, os.fsencode(os.path.join(mount.path, f"{self.number:02d}", "image")))
        self.device = os.stat(mount.path).st_dev
        if given.stay and b"\n" in self.path:
            raise Refusal("a program that stays is told the path of its images on a line, and that of the temporary folder has a newline")
        served = {**os.environb, b"CRASH_SERVED": os.path.dirname(self.path)}
        self.stayed = Stayed(self.words, served, given.seconds, channel.fileno(), self.nothing) if given.stay else None

    def surroundings(self, it):
        return {**super().surroundings(it), b"CRASH_SERVED": os.path.dirname(self.path)}

    def asked_of_server(self, cut, choice=b""):
        """Tells the server something, and returns the sectors that it says, and a second log."""
        try:
            sent(self.server, TOLD.pack(self.number, cut) + choice)
            said = received(self.server)
        except OSError:
            said = b""
        if not said:
            raise Refusal(GONE)
        fault, sectors, log = answered(said)
        if fault:
            raise Refusal(fault)
        return sectors, log

    def test_mounted(self):
        """Refuses what a program ended in whose image was taken away from it."""
        try:
            is_there = os.stat(os.path.dirname(self.path)).st_dev == self.device
        except OSError:
            is_there = False
        if not is_there:
            raise Refusal(GONE)

    def run(self, it):
        """Runs the program, and before it what recovers, where that is a command of its own. Its status doesn't count; where it is killed, or
        takes too long, that is what the image comes to."""
        if self.given.recover is None:
            return super().run(it)
        words = [b"sh", b"-c", os.fsencode(self.given.recover)]
        first = run(words, self.surroundings(it), self.given.seconds, self.channel.fileno(), self.nothing)
        self.test_mounted()
        self.asked_of_server(RECOVERED)
        if first.verdict.kind != EXIT:
            return first
        ended = super().run(it)
        return ended._replace(said=first.said + ended.said, more=first.more + ended.more, left=first.left or ended.left)

    def end(self):
        if self.stayed is not None:
            self.stayed.end()

    def ran(self, it):
        """Runs the program on an image. Returns what it came to, the sectors at which it looked, and what it did to the image where that is
        noted."""
        self.asked_of_server(it.cut, it.choice)
        ended = self.run(it) if self.stayed is None else self.stayed.judge(self.path, it.marks)
        self.test_mounted()
        return ended, *self.asked_of_server(ENDS)

    def judged(self, it):
        """Lets the program judge an image. Of one that stays an image that is run again is judged by a process that judged none before; and
        where it ended in place of an answer, after other images, only what a new one comes to counts."""
        if self.stayed is None:
            return self.ran(it)
        if it.turn != FIRST:
            self.stayed.begin_anew(it.turn == COMPARED)
        was_new = self.stayed.is_new
        found = self.ran(it)
        if self.stayed.process is None and not was_new:
            found = self.ran(it)
        return found

    def judge(self, it):
        """Judges an image, and keeps it where it fails and that is asked for, but for one that is run again to be compared."""
        ended, looked, log = self.judged(it)
        if self.given.keep and it.turn in (FIRST, ALONE) and not ended.verdict.is_good():
            self.asked_of_server(it.cut, it.choice + (KEPT.encode() if self.given.again else b""))
            self.keep(it.number, ended)
            self.asked_of_server(ENDS)
        return ended, ranges(looked).encode() + b"\n" + log

    def copy(self, path):
        shutil.copyfile(self.path, path)
