"""How a command ends that comes to no answer: the signals and the errors that end it, and the line that says why."""
import os
import signal
import sys
from contextlib import suppress

SIGNALS = (signal.SIGHUP, signal.SIGINT, signal.SIGTERM)


class Stopped(BaseException):
    """A signal that ends this program."""


def on_signals(act):
    """Has each signal that ends a program call `act`, but those that are ignored already."""
    for it in SIGNALS:
        if signal.getsignal(it) != signal.SIG_IGN:
            signal.signal(it, act)


def say_stopped(name):
    """Has these signals end a program that hasn't begun anything, as while it imports what it needs: a line says so."""
    on_signals(lambda *_: os._exit(say(name, "stopped before anything was found")))


def exit_on_signals():
    """Has these signals exit with 2, so that what was begun is taken away."""
    on_signals(lambda *_: sys.exit(2))


def say(name, text):
    """Says in one line on standard error why a command doesn't do what was asked for, and returns the status."""
    line = "".join(it if it.isprintable() else it.encode("unicode_escape", "surrogatepass").decode() for it in text)
    with suppress(OSError):
        os.write(2, f"{name}: {line}\n".encode(errors="backslashreplace"))
    return 2


def say_unexpected(name):
    """Has an error that nothing expects end this program with 2: a line below the traceback says that there is no answer. By itself Python
    ends with 1, which says that something fails."""

    def end(kind, error, trace):
        sys.__excepthook__(kind, error, trace)
        sys.exit(say(name, f"it ends without an answer, by an error that isn't expected: {kind.__name__}: {error}"))

    sys.excepthook = end
