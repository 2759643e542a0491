"""What tests of scripts share: shell commands that find the program, what differs, and checks that are tried in folders and counted."""
import os
import signal
import subprocess
import sys
import tempfile
import time
from concurrent.futures import ThreadPoolExecutor
from pathlib import Path

from notation import TOP


def sh(folder, text, *words):
    """Runs shell commands in a folder, in whose path `crashbpf` is the program."""
    return subprocess.run(["sh", "-c", text, "sh", *map(str, words)], cwd=folder, capture_output=True, text=True, stdin=subprocess.DEVNULL)


def differs(what, found, wanted):
    return [] if found == wanted else [f"{what} is {found!r}, and {wanted!r} is right"]


def wait_for_lines(path, beginning, count, seconds=60):
    """Waits until `count` lines of a file have a beginning, for `seconds` seconds at most."""
    deadline = time.monotonic() + seconds
    while time.monotonic() < deadline:
        if path.exists() and sum(it.startswith(beginning) for it in path.read_text().splitlines()) >= count:
            break
        time.sleep(0.05)


def kill_at(running, path, beginning, count):
    """Kills a process as soon as a file has as many lines with a beginning, and waits for what it started to end."""
    wait_for_lines(path, beginning, count)
    os.kill(running.pid, signal.SIGKILL)
    running.communicate()
    time.sleep(2)


def tried(row):
    """Returns the name of a row and what is wrong, tried in a folder of its own."""
    name, check = row
    with tempfile.TemporaryDirectory() as folder:
        return name, check(folder)


def try_all(words, rows, at_a_time=1):
    """Tries rows, each a name and a check, with the program that the words name in the path. Prints what failed, and returns the status."""
    # A process that was started by nohup, or after a shell's &, ignores some signals, and so would what it starts.
    for number in (signal.SIGHUP, signal.SIGINT, signal.SIGTERM):
        signal.signal(number, signal.SIG_DFL)
    program = Path(words[0] if words else TOP / "crates/crashbpf/out/crashbpf").resolve()
    if not os.access(program, os.X_OK):
        sys.exit(f"there is no program {program}: `rt run` in crates/crashbpf builds it")
    passed = failed = 0
    with tempfile.TemporaryDirectory() as path:
        # (rows of another user find it too)
        os.chmod(path, 0o755)
        os.symlink(program, Path(path, "crashbpf"))
        os.environ["PATH"] = os.pathsep.join([path, os.environ["PATH"], "/usr/sbin", "/sbin"])
        os.environ.pop("CRASHBPF", None)
        with ThreadPoolExecutor(at_a_time) as pool:
            for name, found in pool.map(tried, rows):
                passed, failed = passed + (not found), failed + bool(found)
                if found:
                    print(f"FAILED {name}: {'; '.join(found)[:2000]}")
    print(f"{passed} passed, {failed} failed")
    return 1 if failed else 0
