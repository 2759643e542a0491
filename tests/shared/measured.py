#!/usr/bin/env python3
"""Runs programs for soak.py, and tells how each ended and how much memory it took.

A line of standard input is a run, as JSON: its folder, the words of its command, and the seconds that it may take. What the run
prints goes to the files stdout and stderr of its folder. The line that answers has its status and its most memory in bytes.

Linux counts what the process that starts a program holds as the program's own memory. So a small one starts it.
"""
import json
import os
import subprocess
import sys
import threading


def run(folder, words, seconds):
    """Returns the status of a run, and the most memory that it had."""
    with open(f"{folder}/stdout", "wb") as out, open(f"{folder}/stderr", "wb") as error:
        started = subprocess.Popen(words, cwd=folder, stdin=subprocess.DEVNULL, stdout=out, stderr=error)
    late = threading.Timer(seconds, started.kill)
    late.start()
    _pid, status, used = os.wait4(started.pid, 0)
    late.cancel()
    started.returncode = os.waitstatus_to_exitcode(status)
    return started.returncode, used.ru_maxrss << 10


if __name__ == "__main__":
    for line in sys.stdin:
        print(json.dumps(run(*json.loads(line))), flush=True)
