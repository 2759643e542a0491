"""One run of the program that judges: what it ended in, and what it printed. Nothing that it started is left running."""
import contextlib
import os
import select
import shutil
import signal
import time
import traceback
from typing import NamedTuple

from commands.shared.faults import Refusal
from commands.shared.verdicts import TIMED_OUT, Verdict

# How much of what a program prints is kept, and how long the end of what it left running may take.
MOST_SAID = 1 << 16
PATIENCE = 10.0
# No file that is open here has such a number.
MOST_FILES = 4096
# These are at their default in a program, though this one, or what started it, has them otherwise.
RESET = (signal.SIGINT, signal.SIGTERM, signal.SIGHUP, signal.SIGQUIT, signal.SIGPIPE, signal.SIGXFSZ)
# By which a process becomes the parent of those that its children leave.
PR_SET_CHILD_SUBREAPER = 36


class Ended(NamedTuple):
    """The verdict, the beginning of what was printed, how many bytes more it was, and whether processes were left."""

    verdict: Verdict
    said: bytes
    more: int
    left: bool


class Gone(Exception):
    """Nobody waits for the verdict any more."""


def adopt():
    """Lets what the program leaves running become a child of this process, so that it can be ended."""
    try:
        import ctypes

        ctypes.CDLL(None).prctl(PR_SET_CHILD_SUBREAPER, 1, 0, 0, 0)
    except (ImportError, OSError, AttributeError):
        pass


def start(words, surroundings, output, nothing):
    """Starts the program in a session of its own, and returns its number."""
    actions = [(os.POSIX_SPAWN_DUP2, nothing, 0), (os.POSIX_SPAWN_DUP2, output, 1), (os.POSIX_SPAWN_DUP2, output, 2)]
    try:
        return os.posix_spawnp(words[0], words, surroundings, file_actions=actions, setsid=True, setsigmask=[], setsigdef=RESET)
    except (OSError, ValueError) as error:
        raise Refusal(f"the program can't be run: {error}") from None


def start_inside(act, surroundings, output, nothing):
    """Starts a process in a session of its own that does something in place of a program, with its environment, and returns its number.
    `act` returns the status, and has nothing of this process open."""
    process = os.fork()
    if process:
        return process
    status = 2
    try:
        os.setsid()
        for place, file in enumerate((nothing, output, output)):
            os.dup2(file, place)
            os.set_inheritable(place, True)
        os.closerange(3, MOST_FILES)
        for it in RESET:
            signal.signal(it, signal.SIG_DFL)
        signal.pthread_sigmask(signal.SIG_SETMASK, [])
        os.environb.clear()
        os.environb.update(surroundings)
        status = act()
    except SystemExit as ended:
        status = ended.code if isinstance(ended.code, int) else 1
    except BaseException:
        traceback.print_exc()
    finally:
        os._exit(status)


class Said:
    """What is printed, as far as it is kept."""

    def __init__(self, file):
        self.file, self.kept, self.more = file, b"", 0

    def read(self):
        """Takes what is there, and returns whether more may come."""
        try:
            data = os.read(self.file, MOST_SAID)
        except BlockingIOError:
            return False
        room = MOST_SAID - len(self.kept)
        self.kept += data[:room]
        self.more += len(data[room:])
        return bool(data)

    def read_rest(self):
        """Takes what was printed until now, though another may hold the pipe open; no more than a pipe can hold."""
        os.set_blocking(self.file, False)
        for _ in range(64):
            if not self.read():
                break


def watch(process, said, hang_up, seconds):
    """Waits until the process has ended, and returns whether it did in time. What it prints is read meanwhile."""
    ends = os.pidfd_open(process)
    poller = select.poll()
    for file in (ends, said.file, hang_up):
        poller.register(file, select.POLLIN)
    deadline = time.monotonic() + seconds
    try:
        while True:
            wait = deadline - time.monotonic()
            ready = {file for file, _event in poller.poll(max(0, 1000 * wait))}
            if hang_up in ready:
                raise Gone
            if ends in ready:
                return True
            if wait <= 0:
                return False
            if said.file in ready and not said.read():
                poller.unregister(said.file)
    finally:
        os.close(ends)


def parent_of(process):
    """Returns the parent of a process, or None where there is no such process."""
    try:
        with open(f"/proc/{process}/stat", "rb") as file:
            return int(file.read().rpartition(b")")[2].split()[1])
    except (OSError, IndexError):
        return None


def children():
    """Returns the processes of which this one is the parent."""
    try:
        # (not each kernel has this list, which is that of a process without threads)
        with open("/proc/thread-self/children", "rb") as file:
            return [int(it) for it in file.read().split()]
    except OSError:
        return [int(it) for it in os.listdir("/proc") if it.isdigit() and parent_of(it) == os.getpid()]


def end_all(process):
    """Ends the process, its session and what else it left, and returns its status and whether something was left."""
    with contextlib.suppress(ProcessLookupError, PermissionError):
        os.killpg(process, signal.SIGKILL)
    # (one that was forked may not have its session yet)
    with contextlib.suppress(ProcessLookupError, PermissionError):
        os.kill(process, signal.SIGKILL)
    status = os.waitpid(process, 0)[1]
    left, deadline = False, time.monotonic() + PATIENCE
    while True:
        try:
            found = os.waitpid(-1, os.WNOHANG)[0]
        except ChildProcessError:
            return status, left
        left = True
        if found:
            continue
        for it in children():
            with contextlib.suppress(OSError):
                os.kill(it, signal.SIGKILL)
        if time.monotonic() > deadline:
            raise Refusal("a process that the program left can't be ended")
        time.sleep(0.001)


def run(words, surroundings, seconds, hang_up, nothing, act=None):
    """Runs the program, for at most that many seconds; or does `act` in its place, in a process of its own. Where `hang_up` can be read it is
    ended at once."""
    reading, writing = os.pipe2(os.O_CLOEXEC)
    try:
        try:
            process = start(words, surroundings, writing, nothing) if act is None else start_inside(act, surroundings, writing, nothing)
        finally:
            os.close(writing)
        said, in_time = Said(reading), None
        try:
            in_time = watch(process, said, hang_up, seconds)
            # (it is a zombie now, so that its number stands for nobody else)
        finally:
            status, left = end_all(process)
        said.read_rest()
        verdict = Verdict.of_status(status) if in_time else TIMED_OUT
        return Ended(verdict, said.kept, said.more, left and in_time)
    finally:
        os.close(reading)


def tidy(folder, kept=()):
    """Takes away what a program left in a folder, but what has one of these names."""
    for it in os.scandir(folder):
        if it.name in kept:
            continue
        if it.is_dir(follow_symlinks=False):
            shutil.rmtree(it.path)
        else:
            os.unlink(it.path)
