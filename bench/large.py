#!/usr/bin/env python3
"""Time and memory of runs on a log of nearly 1 GiB and a device of 16 GiB, which `--large` allows.

    python3 bench/large.py PROGRAM

The log has 8,000 times a write of 249 sectors and one of sector 0, which says where the 249 lie and what they begin with, and a
flush after each eight writes: 18,000 entries with 2,000,000 units. The checker looks whether what sector 0 says is there. A log of
248 such pairs is explored without a base and over one of 512 MiB. For each run, by one worker, it prints the processor time, the
most memory that it had at once (VmHWM), its status and the last line. The logs and the base take 1.6 GiB of the folder for temporary
files, and a run takes 1.1 GiB of memory. It is no part of the gate.
"""
import os
import subprocess
import sys
import tempfile
from pathlib import Path

sys.dont_write_bytecode = True

import rooms

rooms.enter()

from notation import SECTOR, F, S, super_block

MOST, WIDE, PAIRS = 1 << 25, 249, 8000
CHECKER = """mov64 r1, 0
call 1
jeq r0, 0, +8
ldxdw r6, [r0+0]
ldxdw r7, [r0+8]
mov64 r1, r6
call 1
jeq r0, 0, +3
ldxdw r1, [r0+0]
jeq r1, r7, +1
ja +2
mov64 r0, 0
exit
mov64 r0, 1
exit
"""
RUNS = [
    ("log", MOST, "explore", "--by write --bound 1"),
    ("log", MOST, "explore", "--bound 1"),
    ("log", MOST, "explore", "--by write --bound any"),
    ("log", MOST, "why", "--by write --bound 1"),
    ("log", MOST, "show", "90000 --by write --bound 1"),
    ("less", 1 << 20, "explore", "--by write --bound 1"),
    ("less", 1 << 20, "explore", "--by write --bound 1 --base base"),
]


def write_log(path, pairs, sectors):
    """Writes the log of that many pairs, spread over the device."""
    with open(path, "wb") as file:
        file.write(super_block(2 * pairs + pairs // 4))
        for pair in range(pairs):
            place, number = 1 + pair * ((sectors - WIDE) // pairs), (pair + 1).to_bytes(8, "little")
            file.write(S(place, number.ljust(WIDE * SECTOR, b"\x11")).encoded())
            file.write(S(0, (place.to_bytes(8, "little") + number).ljust(SECTOR, b"\0")).encoded())
            if pair % 4 == 3:
                file.write(F.encoded())


def measured(words, folder):
    """Seconds of the processor, MiB, and the last line of a run."""
    with open(Path(folder, "out"), "w+b") as out:
        started = subprocess.Popen(words, cwd=folder, stdout=out, stderr=subprocess.DEVNULL)
        _, status, used = os.wait4(started.pid, 0)
        out.seek(max(0, out.seek(0, os.SEEK_END) - 200))
        last = out.read().decode(errors="replace").rstrip("\n").split("\n")[-1]
    return used.ru_utime + used.ru_stime, used.ru_maxrss / 1024, os.waitstatus_to_exitcode(status), last


def main(program):
    program = str(Path(program).resolve())
    with tempfile.TemporaryDirectory() as folder:
        write_log(Path(folder, "log"), PAIRS, MOST)
        write_log(Path(folder, "less"), 248, 1 << 20)
        with open(Path(folder, "base"), "wb") as file:
            for _ in range(512):
                file.write(b"\x22" * (1 << 20))
        Path(folder, "checker.s").write_text(CHECKER)
        Path(folder, "checker").write_bytes(subprocess.run([program, "asm", "checker.s"], cwd=folder, capture_output=True, check=True).stdout)
        for log, sectors, command, options in RUNS:
            judged = [] if command == "show" else ["checker", "--workers", "1"]
            words = [program, command, log, *judged, *options.split(), "--large", "--sectors", str(sectors)]
            took, room, status, last = measured(words, folder)
            print(f"{command} {options}, of {log}: {took:.1f} s, {room:.0f} MiB, status {status}, {last[:60]}", flush=True)


if __name__ == "__main__":
    if len(sys.argv) != 2:
        sys.exit(__doc__)
    main(sys.argv[1])
