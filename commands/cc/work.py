"""The folder of what is made on the way, and the programs that run: each has a limit of time, and no signal leaves anything."""
import os
import shutil
import signal
import subprocess
import tempfile
from contextlib import contextmanager

from commands.cc.program import Refusal
from commands.shared.ends import Stopped, on_signals


class NotRun(Refusal):
    """A program can't be run, or takes too long: no other way of compiling helps."""


class Work:
    """A temporary folder, and the program that runs now. Its seconds are how long one program may run."""

    def __init__(self, seconds):
        self.seconds, self.folder, self.child = seconds, None, None
        self.whole, self.signal = False, None

    def begin(self):
        """Makes the folder of the work, and has signals remove it."""
        on_signals(self.stop)
        with self.undivided():
            self.folder = tempfile.mkdtemp(prefix="crashbpf-cc-")

    def stop(self, number, _frame):
        """The first signal ends what is done here, or what follows what is undivided; another changes nothing."""
        if self.signal is None:
            self.signal = number
            if not self.whole:
                raise Stopped

    @contextmanager
    def undivided(self):
        """What no signal ends in the middle: else it might leave what nobody knows of yet."""
        self.whole = True
        try:
            yield
        finally:
            self.whole = False
        if self.signal is not None:
            raise Stopped

    def clean(self):
        """Ends the program that runs, and takes the folder away; it may be called again where a signal came between."""
        self.end_child()
        if self.folder:
            shutil.rmtree(self.folder, ignore_errors=True)

    def end_by_signal(self):
        """Ends this program as the signal does where nobody waits for it."""
        signal.signal(self.signal, signal.SIG_DFL)
        os.kill(os.getpid(), self.signal)

    def end_child(self):
        """Kills the program that runs, and all that it started."""
        if self.child is not None and self.child.returncode is None:
            try:
                os.killpg(self.child.pid, signal.SIGKILL)
            except ProcessLookupError:
                pass
            self.child.wait()
        self.child = None

    def run(self, words, text="", seconds=None):
        """Runs a program with this text as its input. `seconds` is how long it may run, in place of the usual time."""
        words = [str(it) for it in words]
        pipes = dict.fromkeys(("stdin", "stdout", "stderr"), subprocess.PIPE)
        # A source may be in any encoding: its bytes come out as they went in.
        coding = {"encoding": "utf-8", "errors": "surrogateescape", "env": {**os.environ, "LC_ALL": "C"}}
        try:
            with self.undivided():
                self.child = subprocess.Popen(words, **pipes, **coding, start_new_session=True)
            out, said = self.child.communicate(text, timeout=seconds or self.seconds)
            return subprocess.CompletedProcess(words, self.child.returncode, out, said)
        except subprocess.TimeoutExpired:
            raise NotRun(f"{words[0]} took more than {seconds or self.seconds} seconds", "--timeout SECONDS allows more") from None
        except OSError as it:
            raise NotRun(f"{words[0]} can't be run: {it.strerror}") from None
        finally:
            self.end_child()
