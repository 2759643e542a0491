#!/usr/bin/env python3
"""Shows where QEMU's blklogwrites puts a write that is in flight when a flush begins.

    python3 examples/recording/in_flight.py

qemu-storage-daemon logs a disk on which each request takes 100 ms, and offers it by NBD. This program is the client: it
writes sector 0 and waits; it begins to write sector 1, and 50 ms later, when that isn't answered, a flush. A disk owes this
flush sector 0 alone. What it saw is printed, and the log. The last line says what the log promises: `sector 1 before the
flush` is too much, and a run on this log misses images that the disk may leave.

It wants qemu-storage-daemon (Debian: qemu-system-common). The status is 1 where the log promises too much, else 0.
"""
import socket
import struct
import subprocess
import sys
import tempfile
import time
from pathlib import Path

WRITE, FLUSH = 1, 3
LATENCY = 0.1
DAEMON = """\
--blockdev driver=null-co,node-name=disk,size=65536,latency-ns=100000000
--blockdev driver=file,node-name=log,filename=writes.log
--blockdev driver=blklogwrites,node-name=logged,file=disk,log=log,log-sector-size=512
--nbd-server addr.type=unix,addr.path=socket
--export type=nbd,id=export,node-name=logged,name=disk,writable=on
"""


class Client:
    """A client of an NBD server: https://github.com/NetworkBlockDevice/nbd/blob/master/doc/proto.md"""

    def __init__(self, path):
        self.socket = socket.socket(socket.AF_UNIX)
        self.socket.connect(path)
        self.start, self.sent = time.monotonic(), {}
        self.take(18)                                                    # the server's greeting, and its flags
        self.socket.sendall(struct.pack(">I8sII4s", 3, b"IHAVEOPT", 1, 4, b"disk"))
        self.take(10)                                                    # the size, and what the export can do

    def take(self, count):
        """Takes that many bytes from the server."""
        taken = b""
        while len(taken) < count:
            more = self.socket.recv(count - len(taken))
            if not more:
                sys.exit("in_flight: the server has gone")
            taken += more
        return taken

    def say(self, what):
        print(f"{1000 * (time.monotonic() - self.start):5.0f} ms  {what}")

    def begin(self, what, kind, place=0, data=b""):
        """Sends a request, and doesn't wait for its answer."""
        handle = len(self.sent)
        self.sent[handle] = what
        self.say(f"{what} begins")
        self.socket.sendall(struct.pack(">IHHQQI", 0x25609513, 0, kind, handle, place, len(data)) + data)

    def wait(self, count):
        """Waits for that many answers."""
        for _ in range(count):
            _magic, error, handle = struct.unpack(">IIQ", self.take(16))
            self.say(f"{self.sent[handle]} is answered{' with an error' if error else ''}")


def entries_of(content):
    """The entries of a log as sector, number of sectors and flags."""
    place = 512
    for _ in range(struct.unpack_from("<Q", content, 16)[0]):
        sector, count, flags = struct.unpack_from("<3Q", content, place)
        yield sector, count, flags
        place += 512 * (1 + count)


def record(folder):
    """The requests, and the log that was made of them."""
    Path(folder, "writes.log").touch()
    daemon = subprocess.Popen(["qemu-storage-daemon", *DAEMON.split()], cwd=folder)
    try:
        for _ in range(100):
            if Path(folder, "socket").exists():
                break
            time.sleep(0.1)
        client = Client(str(Path(folder, "socket")))
        client.begin("write of sector 0", WRITE, 0, b"\x11" * 512)
        client.wait(1)
        client.begin("write of sector 1", WRITE, 512, b"\x22" * 512)
        time.sleep(LATENCY / 2)
        client.begin("flush", FLUSH)
        client.wait(2)
    finally:
        daemon.terminate()
        daemon.wait()
    return list(entries_of(Path(folder, "writes.log").read_bytes()))


def main():
    with tempfile.TemporaryDirectory() as folder:
        entries = record(folder)
    for number, (sector, count, flags) in enumerate(entries):
        print(f"entry {number}", "flush" if flags & 1 else f"write sector {sector} count {count}")
    flush = next(number for number, (_sector, _count, flags) in enumerate(entries) if flags & 1)
    before = any(sector == 1 and count for sector, count, _flags in entries[:flush])
    print("sector 1", "before" if before else "after", "the flush")
    return 1 if before else 0


if __name__ == "__main__":
    sys.exit(main())
