"""The runners of a run, seen from the process that gives them images: who is idle, what each hasn't been told yet."""
import os
import select
import shutil
import signal
import socket
import tempfile
import time

from commands.each.runner import ANSWER, FIRST, TOLD, FileRunner, serve
from commands.each.stream import RECORD
from commands.shared.ends import SIGNALS
from commands.shared.faults import Refusal
from commands.shared.verdicts import Verdict

# A folder in memory, where there is one with room; at least a half of it is left to others.
MEMORY = "/dev/shm"
PATIENCE = 20.0


def folder_for(size, runners):
    """Makes the folder of all runners, for a file of a size for each runner and a copy of it, and returns its path."""
    place = None
    if not os.environ.get("TMPDIR") and os.access(MEMORY, os.W_OK | os.X_OK):
        it = os.statvfs(MEMORY)
        place = MEMORY if it.f_bavail * it.f_frsize >= 4 * size * runners else None
    return tempfile.mkdtemp(prefix="crashbpf-each-", dir=place)


class Seat:
    """A runner as the others see it: its process, its channel, the records that it hasn't got yet, and the image it is at."""

    def __init__(self, process, channel):
        self.process, self.channel, self.image = process, channel, None
        self.records = {}

    def tell(self, image, mark, turn=FIRST):
        """Gives it an image to judge."""
        records = b"".join(self.records.values())
        self.records.clear()
        sizes = len(image.choice), len(mark), len(records)
        self.image = image.number
        try:
            self.channel.sendall(TOLD.pack(image.number, image.cut, image.marks, turn, *sizes) + image.choice + mark + records)
        except OSError:
            # (it says why in its answer, or is gone)
            pass

    def exactly(self, size):
        """Returns that many bytes from the runner, which has to be there."""
        data = b""
        while len(data) < size:
            more = self.channel.recv(size - len(data))
            if not more:
                raise Refusal(f"a runner ended at image {self.image}")
            data += more
        return data

    def heard(self):
        """Returns the number of the image that it was at, its verdict, whether processes were left, and what is said beside that."""
        try:
            refused, kind, number, left, length = ANSWER.unpack(self.exactly(ANSWER.size))
            said = self.exactly(length)
        except ConnectionError:
            raise Refusal(f"a runner ended at image {self.image}") from None
        if refused:
            raise Refusal(said.decode(errors="replace"))
        image, self.image = self.image, None
        return image, Verdict(kind, number), left, said


class Crew:
    """All runners, which `make` makes. Their folders stand in the given one."""

    def __init__(self, folder, given, make=FileRunner):
        self.rooms, self.seats = [os.path.join(folder, str(it)) for it in range(given.runners)], []
        # (all of them first: a runner that ends takes away the folder above where nothing is in it)
        for room in self.rooms:
            os.mkdir(room)
        for room in self.rooms:
            ours, theirs = socket.socketpair()
            # (a signal that came in between would end both as if they were one; a runner is never ended by one)
            signal.pthread_sigmask(signal.SIG_BLOCK, SIGNALS)
            process = os.fork()
            if process == 0:
                for it in [ours, *(seat.channel for seat in self.seats)]:
                    it.close()
                serve(room, given, theirs, make)
            theirs.close()
            self.seats.append(Seat(process, ours))
            signal.pthread_sigmask(signal.SIG_UNBLOCK, SIGNALS)

    def take(self, records):
        """Notes what a new image changes, for each runner; what is written again before it gets it, it doesn't get."""
        for at in range(0, len(records), RECORD):
            record = records[at : at + RECORD]
            for it in self.seats:
                it.records[record[:8]] = record

    def idle(self):
        return next((it for it in self.seats if it.image is None), None)

    def busy(self):
        return [it for it in self.seats if it.image is not None]

    def heard(self, seconds):
        """Waits at most so long until a runner has come to a verdict, and returns those that have."""
        poller = select.poll()
        busy = {it.channel.fileno(): it for it in self.busy()}
        for file in busy:
            poller.register(file, select.POLLIN)
        return [busy[file].heard() for file, _event in poller.poll(1000 * seconds)]

    def end(self):
        """Ends all runners, each with the program that it runs."""
        for it in self.seats:
            it.channel.close()
        deadline = time.monotonic() + PATIENCE
        for it in self.seats:
            while os.waitpid(it.process, os.WNOHANG)[0] == 0 and time.monotonic() < deadline:
                time.sleep(0.002)
        self.seats = []
        for it in self.rooms:
            shutil.rmtree(it, ignore_errors=True)
