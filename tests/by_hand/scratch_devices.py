#!/usr/bin/env python3
"""Records file systems on devices as large as the scratch devices of file systems' own tests, and explores what was recorded.

    python3 tests/by_hand/scratch_devices.py FOLDER KERNEL [KIND..] [SECTORS]

KIND is xfs, btrfs or f2fs; without one all are taken. A device has SECTORS sectors, 8,388,608 without it, which is 4 GiB; its file
takes no more room than what is written. A guest formats it and works on it (examples/recording/scratch.sh), all within one log.
Then two things are looked at:

- the last image of the log, in which nothing is lost, is to the byte the disk that the guest left;
- `explore --large --by write --bound any` with the checker of the kind (examples/recording/KIND.bpf) finds no failing case.

A row for each kind has the sectors of the device, MiB of the log, entries, units, flushes, cuts, cases, failing cases, seconds of
wall and of the processor, and the most memory in MiB. The status is 1 where the image isn't the disk or a case fails, and 2 where
something is missing, refused, or ends too late.

FOLDER keeps the recordings, so that a run may be gone on with. KERNEL is a folder with boot/vmlinuz-* and lib/modules, as
`dpkg -x linux-image-*.deb KERNEL` makes it. It wants crashbpf on the path, or as $CRASHBPF, what examples/recording/guest wants,
and mkfs.xfs, mkfs.btrfs or mkfs.f2fs (Debian: qemu-system-x86, busybox-static, cpio, dmsetup, e2fsprogs, xfsprogs, btrfs-progs,
f2fs-tools). FOLDER takes some 200 MiB for each kind. TIMEOUT is as `guest` has it, 3600 without it.

By hand: without hardware virtualization, and beside other work, a guest took up to ten minutes, and a run three seconds.
"""
import json
import os
import re
import resource
import shutil
import subprocess
import sys
import tempfile
import time
from pathlib import Path

sys.dont_write_bytecode = True

import rooms

rooms.enter()

from notation import FLUSH, TOP
from rows.recording import entries_of

from commands.each.image_file import PIECE, ImageFile, data_of
from commands.each.stream import images, inputs

BTRFS = "xxhash_generic blake2b_generic zstd_compress raid6_pq xor btrfs"
MODULES = {"xfs": "xfs", "btrfs": BTRFS, "f2fs": "crc32_generic zstd_compress lz4_compress lz4hc_compress f2fs"}
COLUMNS = "kind, sectors, MiB of log, entries, units, flushes, cuts, cases, failing, seconds, processor seconds, MiB of memory"
ENVIRONMENT = {**os.environ, "PATH": f"{os.environ['PATH']}:/usr/sbin:/sbin"}
PROGRAM = os.environ.get("CRASHBPF", "crashbpf")
TOTALS = re.compile(r"(?m)^cuts (\d+) cases (\d+) failing (\d+) torn beyond 0 lost beyond 0 complete$")


class Fault(Exception):
    """Something is missing, refused, or ended too late."""


def wanted(words, **options):
    """What a program printed, whose status is 0."""
    done = subprocess.run([str(it) for it in words], capture_output=True, text=True, errors="replace", **{"env": ENVIRONMENT, **options})
    if done.returncode:
        raise Fault(f"{words[0]}: status {done.returncode}, {done.stdout[-500:]}{done.stderr[-500:]}")
    return done.stdout


def recorded(folder, kernel, kind, sectors):
    """The log of a kind, and the disk that its guest left."""
    out = folder / f"{kind}.{sectors}"
    if not (out / "writes.log").exists():
        environment = {**ENVIRONMENT, "COMMANDS": f"mkfs.{kind}", "MODULES": MODULES[kind], "LOG_SIZE": "1G"}
        environment.setdefault("TIMEOUT", "3600")
        wanted([TOP / "examples/recording/guest", kernel, sectors, out, TOP / "examples/recording/scratch.sh"], env=environment)
    return out / "writes.log", out / "disk.img"


def is_disk(log, disk, sectors, entries):
    """Whether the image after all entries, in which nothing is lost, is the disk. Only what is written is read."""
    cut = str(entries)
    words = [PROGRAM, "export", log, "--large", "--sectors", str(sectors), "--by", "write", "--bound", "0", "--from", cut, "--to", cut]
    process = subprocess.Popen(words, stdout=subprocess.PIPE, bufsize=1 << 20)
    with tempfile.TemporaryDirectory(dir=log.parent) as room:
        image = ImageFile(os.path.join(room, "image"), sectors, None, False)
        inputs(process.stdout)
        for it in images(process.stdout, sectors, 1):
            image.patch(it.records)
        if process.wait():
            raise Fault(f"crashbpf export ended with {process.returncode}")
        with open(disk, "rb") as file:
            places = {at // PIECE for it in (image.file, file.fileno()) for begin, end in data_of(it, image.size) for at in range(begin // PIECE * PIECE, end, PIECE)}
            return all(os.pread(image.file, PIECE, at * PIECE) == os.pread(file.fileno(), PIECE, at * PIECE) for at in sorted(places))


def explored(log, kind, sectors):
    """The text of a run, its seconds, and those of the processor, and the most memory that it took."""
    words = [PROGRAM, "explore", log, TOP / f"examples/recording/{kind}.bpf", "--large", "--sectors", sectors, "--guards", "--by", "write", "--bound", "any", "--workers", 1]
    with tempfile.TemporaryDirectory() as room:
        # (Linux counts what the process that starts a program holds as the program's own memory, so a small one starts it)
        before, start = resource.getrusage(resource.RUSAGE_CHILDREN), time.monotonic()
        line = json.dumps([room, [str(it) for it in words], 3600]) + "\n"
        status, memory = json.loads(wanted([sys.executable, TOP / "tests/shared/measured.py"], input=line))
        seconds, after = time.monotonic() - start, resource.getrusage(resource.RUSAGE_CHILDREN)
        if status not in (0, 1):
            raise Fault(f"explore ended with {status}: {Path(room, 'stderr').read_text(errors='replace')[:300]}")
        used = after.ru_utime + after.ru_stime - before.ru_utime - before.ru_stime
        return Path(room, "stdout").read_text(), seconds, used, memory


def row_of(folder, kernel, kind, sectors):
    """Prints the row of a kind. Returns whether all is well."""
    log, disk = recorded(folder, kernel, kind, sectors)
    entries = entries_of(log.read_bytes())
    same = is_disk(log, disk, sectors, len(entries))
    text, seconds, used, memory = explored(log, kind, sectors)
    (folder / f"{kind}.{sectors}.cases").write_text(text)
    totals = TOTALS.search(text)
    numbers = [sectors, f"{log.stat().st_size / 1048576:.0f}", len(entries), sum(it.count for it in entries), sum(bool(it.flags & FLUSH) for it in entries)]
    numbers += [*(totals.groups() if totals else "---"), f"{seconds:.1f}", f"{used:.1f}", memory >> 20]
    said = [it for it, is_so in (("the last image isn't the disk", not same), ("the run isn't complete", not totals)) if is_so]
    print(f"| {kind} | {' | '.join(map(str, numbers))} |{''.join(f' {it};' for it in said)}", flush=True)
    return same and totals is not None and totals[3] == "0"


def missing(kernel, kinds):
    """What isn't there, in words, or nothing."""
    commands = ["qemu-system-x86_64", "busybox", "cpio", "dmsetup", "mkfs.ext4", PROGRAM, *(f"mkfs.{it}" for it in kinds)]
    absent = [it for it in commands if not shutil.which(it, path=ENVIRONMENT["PATH"])]
    if absent:
        return f"there is no command {', '.join(absent)}"
    if not list(kernel.glob("boot/vmlinuz-*")) or not (kernel / "lib/modules").is_dir():
        return f"{kernel} has no boot/vmlinuz-* or no lib/modules"
    return None


def main(words):
    kinds, numbers = [it for it in words[2:] if it in MODULES], [it for it in words[2:] if it.isdecimal()]
    if len(words) < 2 or len(kinds) + len(numbers) != len(words) - 2 or len(numbers) > 1:
        print("usage: scratch_devices.py FOLDER KERNEL [xfs|btrfs|f2fs ..] [SECTORS]", file=sys.stderr)
        return 2
    folder, kernel, sectors = Path(words[0]).resolve(), Path(words[1]).resolve(), int(numbers[0]) if numbers else 8388608
    said = missing(kernel, kinds or MODULES)
    if said:
        print(f"scratch_devices: {said}", file=sys.stderr)
        return 2
    folder.mkdir(exist_ok=True)
    print(f"| {COLUMNS.replace(', ', ' | ')} |", flush=True)
    try:
        return 0 if all([row_of(folder, kernel, it, sectors) for it in kinds or MODULES]) else 1
    except Fault as fault:
        print(f"scratch_devices: {fault}", file=sys.stderr)
        return 2


if __name__ == "__main__":
    sys.exit(main(sys.argv[1:]))
