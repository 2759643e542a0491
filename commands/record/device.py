"""Records by FUSE what a program does to a device.

The device is one file, $DEVICE: qemu-storage-daemon makes what is written to it the requests of a disk, which its driver
blklogwrites logs. It begins as zeros, or with what --base has. When the program has ended the last image of the log is compared
with the disk: where they differ something was written that the log doesn't have, and there is no log.
"""
import os
import shlex
import shutil
import signal
import struct
import subprocess
import time
from contextlib import suppress
from pathlib import Path

from commands.record.calls import Refused
from commands.record.disk import SECTOR
from commands.record.layout import trace_log
from commands.shared.recording import NAME, Recording

DISK, QEMU, MARKS, TRACE, LOG, DEVICE, NUMBER = "disk.img", "qemu.log", "marks", "trace", "writes.log", "device", "pid"
MADE = (LOG, QEMU, TRACE, DISK, NAME)
# What stands in the folder of a recording that was refused.
LEFT = (DISK, QEMU, MARKS, TRACE, DEVICE, NUMBER, NAME)
DISCARD, MARK = 4, 8


def daemon_command(folder):
    """The command that starts the daemon, and ends when the device is there."""
    return [
        *("qemu-storage-daemon", "--daemonize", "--pidfile", f"{folder}/{NUMBER}"),
        *("--blockdev", f"driver=file,node-name=disk,filename={folder}/{DISK},discard=unmap"),
        *("--blockdev", f"driver=file,node-name=log,filename={folder}/{QEMU}"),
        "--blockdev",
        "driver=blklogwrites,node-name=logged,file=disk,log=log,discard=unmap,log-sector-size=512,log-super-update-interval=1",
        *("--export", f"type=fuse,id=device,node-name=logged,mountpoint={folder}/{DEVICE},writable=on"),
    ]


def stop(folder):
    """Ends the daemon, and waits for its end."""
    with suppress(FileNotFoundError, ValueError):
        number = int(Path(folder, NUMBER).read_text())
        with suppress(ProcessLookupError):
            os.kill(number, signal.SIGTERM)
            while True:
                os.kill(number, 0)
                time.sleep(0.05)


def lay_disk(folder, base, sectors):
    """Makes the disk, and the files that the daemon wants. Returns the number of its sectors."""
    length = 0 if base is None else os.path.getsize(base)
    if base is not None and not os.path.isfile(base):
        raise Refused(f"the base {base} is no file")
    sectors = -(-length // SECTOR) if sectors is None else sectors
    if not 1 <= sectors <= trace_log.LARGE.sectors or length > SECTOR * sectors:
        raise Refused(f"a device has 1 to {trace_log.LARGE.sectors} sectors, and holds its base: say how many by --sectors")
    disk = os.path.join(folder, DISK)
    if base is not None:
        shutil.copyfile(base, disk)
    with open(disk, "ab") as file:
        file.truncate(SECTOR * sectors)
    for name in (DEVICE, QEMU, MARKS):
        Path(folder, name).touch()
    return sectors


def run(folder, words, environment):
    """Runs the program with the device. Returns its status."""
    if "," in folder:
        raise Refused(f"the path of the folder has a comma, which QEMU takes for its own: {folder}")
    try:
        started = subprocess.run(daemon_command(folder), stdin=subprocess.DEVNULL)
    except FileNotFoundError:
        raise Refused("there is no qemu-storage-daemon (Debian: qemu-system-common)") from None
    if started.returncode:
        raise Refused("qemu-storage-daemon doesn't start")
    running = None
    try:
        running = subprocess.Popen(words, env={**environment, "DEVICE": os.path.join(folder, DEVICE)})
        status = running.wait()
    finally:
        if running is not None and running.returncode is None:
            running.kill()
            running.wait()
        stop(folder)
    return status if status >= 0 else 128 - status


def trace_of(text, entries):
    """The trace of QEMU's log with the marks between its entries: each line of `text` is a number of entries and a name."""
    lines, done = [], 0
    for line in [*text.splitlines(), f"{entries} "]:
        number, space, name = line.partition(" ")
        if not number.isdigit() or not space or not done <= int(number) <= entries:
            raise Refused(f"this line of marks has no number of entries: {line[:80]}")
        if int(number) > done:
            lines.append(f"log {QEMU} {done} {number}")
            done = int(number)
        lines += [f"mark {name}"] if name else []
    return "".join(f"{it}\n" for it in lines)


def last_image(log, before):
    """What a device holds after all entries of a log."""
    image, at = bytearray(before), SECTOR
    for _ in range(struct.unpack_from("<Q", log, 16)[0]):
        sector, count, flags = struct.unpack_from("<3Q", log, at)
        data = 0 if flags & (DISCARD | MARK) else SECTOR * count
        if not flags & MARK:
            written = log[at + SECTOR : at + SECTOR + data] if data else bytes(SECTOR * count)
            image[SECTOR * sector : SECTOR * (sector + count)] = written
        at += SECTOR + data
    return image


def record(folder, base, sectors, words, environment, split=0):
    """Records a program. Returns its status, and what is said of the log, in which each write is one of a page of `split` sectors."""
    sectors = lay_disk(folder, base, sectors)
    before = Path(folder, DISK).read_bytes()
    status = run(folder, words, environment)
    logged = Path(folder, QEMU).read_bytes()
    entries = struct.unpack_from("<Q", logged, 16)[0] if len(logged) >= SECTOR else 0
    text = trace_of(Path(folder, MARKS).read_text(), entries)
    Path(folder, TRACE).write_text(text)
    large = sectors > trace_log.USUAL.sectors
    limits = trace_log.LARGE if large else trace_log.USUAL
    try:
        log = trace_log.made(text, Path(folder), sectors, limits, split)
    except trace_log.Refused as refused:
        raise Refused(f"trace:{refused}") from None
    if last_image(log, before) != Path(folder, DISK).read_bytes():
        raise Refused("the last image of the log isn't the disk: something was written that the log doesn't have, as a mapped page is")
    trace_log.write_log(os.path.join(folder, LOG), [log])
    Recording(folder, sectors, large, base and os.path.abspath(base), at=os.getcwd(), program=list(words)).write()
    return status, f"entries {struct.unpack_from('<Q', log, 16)[0]} sectors {sectors}: crashbpf-each {shlex.quote(os.path.relpath(folder))} -- COMMAND {{}}"
