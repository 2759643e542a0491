#!/usr/bin/env python3
"""Times runs of a program on a folder that is served beside the same on one that is laid out. By hand.

    python3 tests/by_hand/served_times.py RECORDING COMMAND [TURNS]
    python3 tests/by_hand/served_times.py --examples [TURNS [NAME ..]]

RECORDING is a folder of crashbpf-record, and COMMAND is one for sh that is run in the folder with the files of its last image. With --examples
these are recorded and judged, or those that begin with a NAME: SQLite, LMDB and LevelDB by examples/kv, and commits of git by `git fsck`. Both ways are run by turns, TURNS
times, 15 where that isn't given. Prints the least and the middle of the milliseconds of each way by the clock, and the mean of those of the
processor, in which the server's are counted too; and how many times that of the other a served run takes, by each. Where the machine does
other work beside only the processor's time says something. It takes as root or as a user what crashbpf-each takes; the examples want strace,
python3-lmdb, python3-plyvel and git.
"""
import os
import resource
import statistics
import subprocess
import sys
import tempfile
import time
from pathlib import Path

sys.dont_write_bytecode = True

import rooms

rooms.enter()

from commands.each.served_log import BLOCK, LogImages
from commands.each.served_mount import Mount
from commands.each.served_server import ENDS, TOLD, received, sent
from commands.record import laying
from commands.shared import recording
from notation import TOP

KV, RECORDER = TOP / "examples/kv", TOP / "commands/record/crashbpf-record"
# Commits of git, which has nothing of the user's settings.
COMMITS = """\
cd $FILES && git init -q . && git config user.name it && git config user.email it@it && git config core.fsync all
for it in 1 2 3; do echo $it >text && git add text && git commit -qm $it && mark saved-$it || exit 1; done
"""
STORES = {"SQLite, DELETE": "sqlite:DELETE,FULL", "SQLite, WAL": "sqlite:WAL,FULL", "LMDB": "lmdb", "LevelDB": "leveldb:sync"}
# Of each example the program that is recorded, and what judges its files.
EXAMPLES = {
    **{name: ([KV / "workload", of], f"{KV}/check {of}") for name, of in STORES.items()},
    "git": (["sh", "-c", COMMITS], "git fsck --full"),
}


def run(words, surroundings):
    """Runs what crashbpf-files does. Returns its status."""
    process = os.fork()
    if process == 0:
        os.environ.update(surroundings)
        os.dup2(os.open(os.devnull, os.O_WRONLY), 1)
        os._exit(laying.main(words))
    return os.waitstatus_to_exitcode(os.waitpid(process, 0)[1])


def of_children():
    """The milliseconds of the processor that ended processes took."""
    it = resource.getrusage(resource.RUSAGE_CHILDREN)
    return 1000 * (it.ru_utime + it.ru_stime)


def of_server(process):
    """Those that the server took so far, by the system's ticks."""
    fields = Path(f"/proc/{process}/stat").read_text().rpartition(")")[2].split()
    return 1000 * (int(fields[11]) + int(fields[12])) / os.sysconf("SC_CLK_TCK")


class Times:
    """The times of one way."""

    def __init__(self, act):
        self.act, self.clock, self.processor = act, [], 0.0

    def turn(self):
        """Goes that way once."""
        before, begun = of_children(), time.monotonic()
        self.act()
        self.clock.append(1000 * (time.monotonic() - begun))
        self.processor += of_children() - before


def served(mount, cut, words):
    """Runs it on the image that is served."""
    channel = mount.channels[0]
    sent(channel, TOLD.pack(0, cut) + b"-")
    received(channel)
    folder = os.path.join(mount.path, "00")
    status = run([words[0], os.path.join(folder, "image"), *words[1:]], {"CRASH_SERVED": folder})
    sent(channel, TOLD.pack(0, ENDS))
    received(channel)
    return status


def whole(images, base, path):
    """Writes the image of the end of a log, where nothing is lost, as a file."""
    image = images.image_of(len(images.entries), {})
    path.write_bytes(base)
    with path.open("r+b") as file:
        file.truncate(512 * images.sectors)
        for sector in (at for block in images.blocks for at in range(BLOCK * block, min(BLOCK * block + BLOCK, images.sectors))):
            file.seek(512 * sector)
            file.write(image.sector(sector))


def timed(folder, command, turns):
    """Runs a command on the files of a recording both ways, by turns. Prints what they take."""
    it = recording.read(folder)
    images = LogImages(it.log(), it.path(it.base) if it.base else None, it.sectors, True)
    # (a check that compares marks has those of the last image)
    os.environ["CRASH_MARKS"] = str(images.marks[-1])
    cut, judge = len(images.entries), [it.path(it.map), "--", "sh", "-c", command]
    with tempfile.TemporaryDirectory() as room:
        plain = Path(room, "image")
        whole(images, Path(it.path(it.base)).read_bytes() if it.base else b"", plain)
        mount = Mount(room, images, 1)
        plainly, by_server = Times(lambda: run([judge[0], str(plain), *judge[1:]], {})), Times(lambda: served(mount, cut, judge))
        ways = {"laid out": plainly, "served": by_server}
        try:
            statuses, before = [it.act() for it in ways.values()], of_server(mount.process)
            for _ in range(turns):
                for way in ways.values():
                    way.turn()
            by_server.processor += of_server(mount.process) - before
        finally:
            mount.end()
    for name, of in ways.items():
        print(f"{name}: clock {min(of.clock):.1f} / {statistics.median(of.clock):.1f} ms, processor {of.processor / turns:.1f} ms")
    times = min(by_server.clock) / min(plainly.clock), by_server.processor / plainly.processor
    print("statuses {} and {}; a served one takes {:.2f} times the other by the clock, and {:.2f} by the processor".format(*statuses, *times), flush=True)


def main(words):
    """Times what the words name."""
    if words[0] != "--examples":
        timed(words[0], words[1], int(words[2]) if len(words) > 2 else 15)
        return 0
    for name, (program, judge) in EXAMPLES.items():
        if len(words) > 2 and not name.startswith(tuple(words[2:])):
            continue
        with tempfile.TemporaryDirectory() as room:
            done = subprocess.run([RECORDER, "--files", "ext4", "--skip", "*-shm", "--skip", "lock.mdb", f"{room}/it", "--", *program], capture_output=True, text=True, stdin=subprocess.DEVNULL)
            if done.returncode:
                print(f"{name}: it isn't recorded: {done.stderr}")
                return 1
            print(name, judge.replace(f"{TOP}/", ""), sep=": ")
            timed(f"{room}/it", judge, int(words[1]) if len(words) > 1 else 15)
    return 0


if __name__ == "__main__":
    sys.exit(main(sys.argv[1:]))
