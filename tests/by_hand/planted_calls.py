#!/usr/bin/env python3
"""Plants faults in a copy of crashbpf-record, and wants that random runs on files find each of them.

    python3 tests/by_hand/planted_calls.py [--most N] [NAME ..]

The runs are those of tests/gate/named_files.py: random steps as texts of strace, compared with a plain model by each table. Each fault
is looked for with the runs of the numbers from 1 up to N, 400 where it isn't given. NAME plants the faults whose names have that
in them.

Prints which run found each fault, and last `N passed, M failed`. It takes a minute of processor time.
"""
import argparse
import os
import shutil
import subprocess
import sys
import tempfile
from pathlib import Path

sys.dont_write_bytecode = True

import rooms

rooms.enter()

from notation import TOP

# The name, the file of commands/record, the text there, and what is planted in its place.
PLANTS = [
    ("fdatasync is taken for fsync", "named.py", 'data=call.name == "fdatasync"', "data=False"),
    ("fsync is taken for fdatasync", "named.py", 'data=call.name == "fdatasync"', "data=True"),
    ("fallocate through O_DSYNC is durable", "tracing.py", "bytes(end - start), False)", "bytes(end - start), flight.opened.through)"),
    ("O_TRUNC counts only where the file can be written", "tracing.py", 'if "O_TRUNC" in flags and "O_PATH" not in flags:', 'if "O_TRUNC" in flags and writable:'),
    ("/proc/self is the recorder", "tracing.py", "if path in OWN:", "if False:"),
    ("links of /proc/self are those of the recorder", "tracing.py", "found = OF_PROCESS.fullmatch(path)", "found = None"),
    ("writes of pwritev2 aren't durable", "tracing.py", "opened.through or bool(flags & THROUGH)", "opened.through"),
    ("O_APPEND isn't seen", "tracing.py", 'append = opened.append or "RWF_APPEND" in flags', 'append = "RWF_APPEND" in flags'),
    ("an exchange is a rename", "named.py", 'exchange = "RENAME_EXCHANGE" in flags', "exchange = False"),
    ("creat keeps the size", "tracing.py", '{"O_WRONLY", "O_CREAT", "O_TRUNC"} if', '{"O_WRONLY", "O_CREAT"} if'),
    ("lseek isn't followed", "tracing.py", "            flight.opened.at = call.moved_to()\n", "            pass\n"),
    ("a sync covers what came while it was in flight", "named.py", "        self.tree.end_sync(flight.sync)", "        self.tree.end_sync(self.tree.begin_file(flight.file) if isinstance(flight.file, File) else flight.sync)"),
    ("fsync of a folder is nothing", "named.py", "            if name in self.folders:\n                flight.sync", "            if name in ():\n                flight.sync"),
    ("fallocate isn't longer", "tracing.py", "            if start + length > file.size:\n                self.allocate", "            if False:\n                self.allocate"),
    ("room that is reserved isn't noted", "named.py", "call.number(2), call.number(2) + call.number(3))", "0, 0)"),
    ("linkat takes the link for the file", "named.py", 'if call.name == "linkat" and "AT_SYMLINK_FOLLOW" in call.word(4):', "if False:"),
]
# Runs named_files.py from a number on until one finds something, in a folder of tests.
RUNS = """
import sys
import named_files
for seed in range(1, int(sys.argv[1]) + 1):
    for it in named_files.run_faults(seed):
        print(f"run {seed}: {it}"[:200])
        sys.exit(1)
"""


def copied(folder):
    """Makes a copy of what the runs take. Returns its folder of the recorder."""
    for name in os.listdir(TOP):
        if name in ("commands", "tests"):
            shutil.copytree(TOP / name, Path(folder, name), ignore=shutil.ignore_patterns("__pycache__"))
        elif not name.startswith("."):
            os.symlink(TOP / name, Path(folder, name))
    return Path(folder, "commands/record")


def looked_for(name, file, text, planted, most):
    """What is wrong with a fault that is planted: that its text isn't there, or that no run finds it. Says which one did."""
    with tempfile.TemporaryDirectory() as folder:
        path = copied(folder) / file
        whole = path.read_text()
        if text not in whole:
            return f"{name}: its text isn't there"
        path.write_text(whole.replace(text, planted))
        done = subprocess.run([sys.executable, "-c", RUNS, str(most)], capture_output=True, text=True, cwd=Path(folder, "tests"), env={**os.environ, "PYTHONPATH": "gate"})
    print(f"{name}: {done.stdout[:90] or (done.stderr.strip().splitlines() or ['not found'])[-1]}", flush=True)
    return None if done.returncode == 1 and (done.stdout.startswith("run ") or "Error" in done.stderr) else f"{name}: no run of {most} finds it"


def main():
    parser = argparse.ArgumentParser(description="Plants faults in a copy of crashbpf-record, and wants that random runs find them.")
    parser.add_argument("--most", type=int, default=400, metavar="N", help="how many runs look for each")
    parser.add_argument("names", nargs="*", metavar="NAME", help="those with this in their names")
    words = parser.parse_args()
    these = [it for it in PLANTS if not words.names or any(name in it[0] for name in words.names)]
    found = [looked_for(*it, words.most) for it in these]
    for line in (it for it in found if it):
        print("FAILED", line)
    failed = sum(1 for it in found if it)
    print(f"{len(found) - failed} passed, {failed} failed")
    return 1 if failed else 0


if __name__ == "__main__":
    sys.exit(main())
