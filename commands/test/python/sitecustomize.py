"""Tells crashbpf-test which line of a Python program makes a call: for programs that it records, which have this folder on Python's path.

Before each call of a function in C a link is asked for that isn't there, whose name has the file and the line; strace sees it. Told is the
innermost line that isn't of Python's own library, once while it is the same.
"""
import builtins
import os
import sys
import sysconfig

PREFIX = "/crashbpf:"


def others():
    """Runs the sitecustomize that this one stands before, if there is one."""
    import importlib.machinery
    import importlib.util

    here = os.path.dirname(os.path.abspath(__file__))
    path = [it for it in sys.path if os.path.abspath(it) != here]
    found = importlib.machinery.PathFinder.find_spec("sitecustomize", path)
    if found is not None and found.loader is not None:
        found.loader.exec_module(importlib.util.module_from_spec(found))


def begin():
    """Begins to tell, in this thread and in those that are made."""
    import threading

    library = tuple({os.path.realpath(sysconfig.get_path(it)) + os.sep for it in ("stdlib", "platstdlib")} | {sysconfig.get_path("stdlib") + os.sep, "<"})
    packages = (os.sep + "site-packages" + os.sep, os.sep + "dist-packages" + os.sep)
    ask, known, last = os.readlink, {}, threading.local()

    def is_own(name):
        """Whether a file is the program's."""
        if name not in known:
            known[name] = not name.startswith(library) or any(it in name for it in packages)
        return known[name]

    # What makes no call of the system: methods of plain values, and most functions that need no import.
    plain = {str, bytes, bytearray, list, tuple, dict, set, frozenset, int, float, bool, type(None)}
    calling = {"open", "print", "exec", "eval"}

    def tell(frame, event, called):
        """Tells the line of a call in C."""
        if event != "c_call":
            return
        own = getattr(called, "__self__", None)
        if type(own) in plain or own is builtins and called.__name__ not in calling:
            return
        while frame is not None and not is_own(frame.f_code.co_filename):
            frame = frame.f_back
        if frame is None:
            return
        here = frame.f_code.co_filename, frame.f_lineno
        if getattr(last, "here", None) != here:
            last.here = here
            try:
                ask(f"{PREFIX}{os.path.abspath(here[0])}:{here[1]}")
            except (OSError, ValueError):
                pass

    os.register_at_fork(after_in_child=lambda: setattr(last, "here", None))
    threading.setprofile(tell)
    sys.setprofile(tell)


try:
    others()
finally:
    begin()
