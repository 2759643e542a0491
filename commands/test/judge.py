"""Judges what crashes leave: the check is run on the files of each image that differs, several at a time, and each verdict is kept."""
import os
import pickle
import select
import shlex
import shutil
import signal
import socket
import struct
import time
from pathlib import Path
from typing import NamedTuple

from commands.each.crew import PATIENCE, folder_for
from commands.each.report import escaped
from commands.each.runner import adopt
from commands.record.named_layout import lay_out
from commands.shared.ends import SIGNALS
from commands.shared.faults import Refusal
from commands.shared.program import Gone, run
from commands.shared.verdicts import EXIT, SIGNAL, Verdict

LENGTH = struct.Struct("<Q")
# What a runner answers beside a verdict.
REFUSED = "refused"


class Judged(NamedTuple):
    """A verdict, and what the check printed."""

    verdict: Verdict
    said: bytes

    def is_good(self):
        return self.verdict.is_good()

    def text(self):
        """What the check ended in, in words."""
        if self.verdict.kind == EXIT:
            return f"status {self.verdict.number}"
        return f"signal {self.verdict.number}" if self.verdict.kind == SIGNAL else "out of time"

    def lines(self):
        return [it for it in self.said.decode(errors="replace").splitlines() if it.strip()]


def send(channel, what):
    data = pickle.dumps(what)
    channel.sendall(LENGTH.pack(len(data)) + data)


def receive(channel):
    """Returns what the other side sent, or raises Gone where it is closed."""
    data, wanted = b"", LENGTH.size
    while len(data) < wanted:
        more = channel.recv(min(wanted - len(data), 1 << 20))
        if not more:
            raise Gone
        data += more
        if wanted == LENGTH.size and len(data) == wanted:
            wanted += LENGTH.unpack(data)[0]
    return pickle.loads(data[LENGTH.size :])


def surroundings(seen, cut, choice):
    """What the check finds in its environment, as with crashbpf-each."""
    return {"CRASH_MARKS": str(seen.marks), "CRASH_MARK": escaped(seen.mark), "CRASH_CUT": str(cut), "CRASH_CHOICE": choice}


class Runner:
    """A process that runs the check in a folder of its own."""

    def __init__(self, room, words, seconds, channel):
        self.room, self.words, self.seconds, self.channel = room, words, seconds, channel
        self.nothing = os.open(os.devnull, os.O_RDONLY | os.O_CLOEXEC)

    def judge(self, contents, told):
        """Runs the check on files."""
        folder = os.path.join(self.room, "files")
        os.mkdir(folder)
        try:
            lay_out(contents, folder)
            os.chdir(folder)
            environment = {**os.environ, **told, "FILES": folder}
            environment.pop("CRASH_IMAGE", None)
            ended = run(self.words, {os.fsencode(name): os.fsencode(it) for name, it in environment.items()}, self.seconds, self.channel.fileno(), self.nothing)
        finally:
            os.chdir("/")
            shutil.rmtree(folder, ignore_errors=True)
        if os.path.lexists(folder):
            raise Refusal(f"what the check left can't be removed: {folder}")
        return ended.verdict, ended.said

    def serve(self):
        """Judges as it is told. Returns to nobody."""
        for it in (*SIGNALS, signal.SIGQUIT):
            signal.signal(it, signal.SIG_IGN)
        adopt()
        try:
            while True:
                send(self.channel, self.judge(*receive(self.channel)))
        except (Gone, ConnectionError):
            pass
        except (Refusal, OSError) as error:
            send(self.channel, (REFUSED, str(error)))
        finally:
            shutil.rmtree(self.room, ignore_errors=True)
            os._exit(0)


class Judge:
    """All runners, and the verdicts by what was judged."""

    def __init__(self, words, runners, seconds):
        self.judged, self.waiting, self.idle, self.processes, self.runs = {}, {}, [], [], 0
        self.folder = folder_for(1 << 24, runners)
        for it in range(runners):
            self.start(os.path.join(self.folder, str(it)), words, seconds)

    def start(self, room, words, seconds):
        """Starts a runner."""
        os.mkdir(room)
        ours, theirs = socket.socketpair()
        signal.pthread_sigmask(signal.SIG_BLOCK, SIGNALS)
        process = os.fork()
        if process == 0:
            for it in (ours, *self.idle):
                it.close()
            signal.pthread_sigmask(signal.SIG_UNBLOCK, SIGNALS)
            Runner(room, words, seconds, theirs).serve()
        theirs.close()
        self.idle.append(ours)
        self.processes.append(process)
        signal.pthread_sigmask(signal.SIG_UNBLOCK, SIGNALS)

    def ask(self, seen, cut, choice):
        """Has something judged, unless it was or is about to be."""
        if seen.key in self.judged or seen.key in self.waiting.values():
            return
        while not self.idle:
            self.hear()
        channel = self.idle.pop()
        send(channel, (seen.contents, surroundings(seen, cut, choice)))
        self.waiting[channel] = seen.key

    def hear(self):
        """Waits for a verdict."""
        ready, _, _ = select.select(list(self.waiting), [], [])
        for channel in ready:
            try:
                verdict, said = receive(channel)
            except (Gone, ConnectionError):
                raise Refusal("a runner of the check ended") from None
            if verdict == REFUSED:
                raise Refusal(said)
            self.judged[self.waiting.pop(channel)] = Judged(verdict, said)
            self.idle.append(channel)
            self.runs += 1

    def settle(self):
        while self.waiting:
            self.hear()

    def of(self, seen, cut, choice):
        """The verdict on something."""
        self.ask(seen, cut, choice)
        while seen.key not in self.judged:
            self.hear()
        return self.judged[seen.key]

    def end(self):
        """Ends all runners, each with the check that it runs."""
        for it in (*self.idle, *self.waiting):
            it.close()
        deadline = time.monotonic() + PATIENCE
        for it in self.processes:
            while os.waitpid(it, os.WNOHANG)[0] == 0 and time.monotonic() < deadline:
                time.sleep(0.002)
        shutil.rmtree(self.folder, ignore_errors=True)


def absolute(check, at, own):
    """The check as a shell's command that can be run elsewhere. Of one of plain words, each that names a file below the folder `at`,
    and none of the program's own, names that one by its path. A folder stays as it is: it is one of the crash."""
    words = check.split(" ")
    if not all(it and all(one.isalnum() or one in "_@%+=:,./-" for one in it) for it in words):
        return check

    def is_ours(word):
        return not word.startswith(("/", "-")) and os.fsencode(os.path.normpath(word)) not in own and Path(at, word).is_file()

    return " ".join(shlex.quote(os.path.join(at, it)) if is_ours(it) else it for it in words)
