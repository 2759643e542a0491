#!/usr/bin/env python3
"""Plants faults in a copy of the server of images, and tries that the comparisons with plain files find each.

    python3 tests/by_hand/served_faults.py [--runs N] [--only NAME ..]

A fault is a look that isn't noted, or bytes that a program didn't write and that count as its own. N runs (40 where it isn't given) of
served_soak.py or served_folders.py have to find it, and the same runs find nothing without it. It needs what these need.
"""
import argparse
import shutil
import subprocess
import sys
import tempfile
from pathlib import Path

sys.dont_write_bytecode = True

import rooms

rooms.enter()

from notation import TOP

SOAK, FOLDERS, EACH = "tests/by_hand/served_soak.py", "tests/by_hand/served_folders.py", "commands/each"
# A name, the file, the text before and after, and what has to find it, with its options.
FAULTS = [
    ("nothing", None, "", "", (SOAK,)),
    ("nothing, by pages", None, "", "", (SOAK, "--pages")),
    ("nothing, in folders", None, "", "", (FOLDERS,)),
    (
        "a mapped page isn't noted",
        "served_server.py",
        "        return node.read(at, size)\n",
        "        looked = dict(node.looks.looked)\n        found = node.read(at, size)\n        if size == 4096 and at % 4096 == 0:\n            node.looks.looked = looked\n        return found\n",
        (SOAK,),
    ),
    ("a sector that was written in part counts as the run's own", "served_tree.py", "        if own is not None and own[1] == WHOLE:\n", "        if own is not None:\n", (SOAK,)),
    ("a sector that was cut off counts as the run's own", "served_tree.py", "own[1] |= WHOLE >> start << start\n", "own[1] |= WHOLE\n", (SOAK,)),
    (
        "a listing isn't noted",
        "served_folder.py",
        "        self.names, self.files, self.links, self.seen, self.masked = self.image.names(), {}, {}, set(), masked()\n",
        "        self.names, self.files, self.links, self.seen, self.masked = self.image.names(), {}, {}, set(), masked()\n        looks.looked.clear()\n",
        (FOLDERS,),
    ),
    (
        "a size isn't noted",
        "served_folder.py",
        "            self.length, self.first = self.room()\n",
        "            looked = dict(self.looks.looked)\n            self.length, self.first = self.room()\n            self.looks.looked = looked\n",
        (FOLDERS,),
    ),
    ("contents aren't noted", "served_tree.py", "        there = self.looks.sector(self.first + place)\n", "        there = self.looks.image.sector(self.first + place)\n", (FOLDERS,)),
    ("the mode of a file is lost", "served_folder.py", "            mode, links = stat.S_IFREG | self.mode(FILE, number, self.masked[0]), self.links[FILE, number]\n", "            mode, links = stat.S_IFREG | self.masked[0], self.links[FILE, number]\n", (FOLDERS,)),
    ("a hard link counts one name", "served_folder.py", "NamedFile(self.looks, mode, FILES_FROM + number, links,", "NamedFile(self.looks, mode, FILES_FROM + number, 1,", (FOLDERS,)),
]


def tried(fault, room, runs):
    """Returns whether the comparison ends as it has to, and says what it printed."""
    name, file, before, after, (script, *words) = fault
    copy = Path(room, "copy")
    for folder in ("commands", "tests"):
        shutil.copytree(TOP / folder, copy / folder)
    if file:
        path = copy / EACH / file
        text = path.read_text()
        assert text.count(before) == 1, name
        path.write_text(text.replace(before, after))
    done = subprocess.run([sys.executable, copy / script, "--runs", str(runs), "--first", *words], capture_output=True, text=True)
    shutil.rmtree(copy)
    is_found = done.returncode == 1 and " failed\n" in done.stdout
    held = is_found if file else done.returncode == 0
    print(f"{name}: {'found' if is_found else 'not found'} by {script}: {(done.stdout.splitlines() or [done.stderr[-200:]])[-1]}{'' if held else '  WRONG'}", flush=True)
    return held


def main():
    parser = argparse.ArgumentParser(description="Plants faults in the server of images.")
    parser.add_argument("--runs", type=int, default=40)
    parser.add_argument("--only", nargs="*")
    given = parser.parse_args()
    with tempfile.TemporaryDirectory() as room:
        held = [tried(it, room, given.runs) for it in FAULTS if not given.only or it[0] in given.only]
    print(f"{sum(held)} passed, {len(held) - sum(held)} failed")
    return 0 if all(held) else 1


if __name__ == "__main__":
    sys.exit(main())
