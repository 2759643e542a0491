"""The kit's command rt as a module, for tools that check crates as it does."""
import contextlib
import importlib.machinery
import importlib.util
import os
import shutil
import sys
import tempfile


def load():
    """Returns the module. Libraries that it builds begin with what other checkouts on this machine kept."""
    command = shutil.which("rt") or sys.exit("there is no command rt")
    loader = importlib.machinery.SourceFileLoader("rt_command", os.path.realpath(command))
    rt = importlib.util.module_from_spec(importlib.util.spec_from_loader("rt_command", loader))
    loader.exec_module(rt)
    # Its first call sets a signal's handler, which only the main thread may.
    rt.rtlib.guarded()
    for name, stand_in in stand_ins(rt).items():
        if not hasattr(rt, name):
            setattr(rt, name, stand_in)
    rt.share_work(False)
    return rt


def stand_ins(rt):
    """Returns what stands in for calls that only some kits have: without them nothing is kept between checkouts."""

    def seeded(crate, flags, kept):
        """Checks the crate as it stands, over what is kept of it, and returns a folder with what that left in seed/, or None."""
        room = tempfile.mkdtemp(prefix="rt-seed-")
        seed = f"{room}/seed"
        shutil.copytree(kept, seed) if kept else os.mkdir(seed)
        if rt.checked(crate, {}, flags, seed).returncode:
            shutil.rmtree(room, ignore_errors=True)
            return None
        return room

    return {
        "share_work": lambda shares: None,
        "ending": contextlib.nullcontext,
        "adopt": lambda crate, is_alone: None,
        "seeded": seeded,
        "linked": shutil.copytree,
    }


def gate():
    """Returns the words of the gate from nothing: a kit that keeps nothing between checkouts has no word for it."""
    return ["rt", "ci", *["--anew"] * hasattr(load(), "Kept")]


def crates(rt):
    """Returns the crates of the repository at hand, each after those that it stands on."""
    return sorted(rt.rtlib.crates_below(os.getcwd()), key=lambda it: len(it.below()))


def build_below(crate):
    """Builds the libraries that a crate stands on, where they aren't built, and ends the tool where one isn't proved."""
    if any(it.build_rlib(["--jobs", "1"], anew=False) for it in crate.below()):
        sys.exit(f"{crate.name}: a library below it isn't proved")
