"""What `workload` and `check` share: what a seed does to a store, and the adapters by which each store is called.

An adapter in Python has a class `Store(folder, mode)` with get, put, remove, commit and close; get gives None where a key isn't there. It
may have begin, which comes before the first put or remove of a commit, checkpoint, and verify, which says whether the store takes itself for
whole. One in C has the functions of kv.h. Where a store has no transactions the adapter says so by IS_SINGLE, and a commit changes one key.

A check is made of each crash image, so what takes long to import is imported where it is needed.
"""
import argparse
import importlib.util
import os
import random
from collections import namedtuple

HERE = os.path.dirname(os.path.realpath(__file__))
KEYS = [b"key-%d" % it for it in range(8)]
# How many bytes a value has. The largest has several pages.
SIZES = (0, 3, 40, 600, 600, 5000, 20000)
# What opens a store, and whether a commit changes one key.
Adapter = namedtuple("Adapter", "open is_single")
# The new values by their keys, None where one is removed; and what is done after the mark: nothing, or a word that says what.
Commit = namedtuple("Commit", "changes then")


def parse(about):
    """Returns the words of a command."""
    made = argparse.ArgumentParser(description=about, formatter_class=argparse.RawDescriptionHelpFormatter)
    made.add_argument("adapter")
    made.add_argument("--seed", type=int, default=1)
    made.add_argument("--commits", type=int, default=4)
    made.add_argument("--made", type=int, default=0)
    made.add_argument("--prefix", action="store_true")
    made.add_argument("--opened", action="store_true")
    return made.parse_args()


def changes(chance, number, there, is_single):
    """Returns what a commit changes: a few keys, of which those that are there may be removed."""
    found = {}
    for key in chance.sample(KEYS, 1 if is_single else chance.randint(1, 4)):
        is_removed = key in there and chance.random() < 0.3
        found[key] = None if is_removed else b"%d:" % number + chance.randbytes(chance.choice(SIZES))
    return found


def plan(given, is_single):
    """Returns the commits of a seed."""
    chance, made, there = random.Random(given.seed), [], set()
    for number in range(1, given.commits + 1):
        found = changes(chance, number, there, is_single)
        there = {key for key in {*there, *found} if found.get(key, b"") is not None}
        made.append(Commit(found, chance.choice(("", "", "reopen", "checkpoint"))))
    return made


def make(store, found):
    """Makes one commit."""
    if hasattr(store, "begin"):
        store.begin()
    for key, value in found.items():
        store.remove(key) if value is None else store.put(key, value)
    store.commit()


def states(commits):
    """Returns what a store has before the first commit, and after each."""
    found = [{}]
    for commit in commits:
        now = {**found[-1], **commit.changes}
        found.append({key: value for key, value in now.items() if value is not None})
    return found


def known():
    """Returns the names of the adapters that are here."""
    return sorted(it.split(".")[0] for it in os.listdir(f"{HERE}/adapters") if it.endswith((".py", ".c")))


def adapter(word):
    """Returns an adapter, and the mode that stands after its name."""
    name, _, mode = word.partition(":")
    paths = [name, f"{HERE}/adapters/{name}.py", f"{HERE}/adapters/{name}.c"]
    path = next((it for it in paths if it.endswith((".py", ".c")) and os.path.exists(it)), None)
    if path is None:
        raise SystemExit(f"there is no adapter {name}: there are {', '.join(known())}, or a file of your own, as ./mine.py")
    if path.endswith(".c"):
        import library

        return Adapter(*library.load(path)), mode
    spec = importlib.util.spec_from_file_location("adapter", path)
    made = importlib.util.module_from_spec(spec)
    spec.loader.exec_module(made)
    return Adapter(made.Store, getattr(made, "IS_SINGLE", False)), mode
