#!/usr/bin/env python3
"""Looks on a real file system for what the rows of docs/FOUND.md found by a table. By hand.

    python3 tests/by_hand/found_on_ext4.py [--store] [--all] FOLDER here|KERNEL [ROW ..]

The programs of the rows are run one after the other on an ext4 that is mounted by default. What reaches its disk is recorded. Each crash
image between a row's begin and its end is recovered by e2fsck, and the row's own check judges the files. First come images of cuts at marks
where nothing is lost, then such ones of all cuts, then those that lack one write of the disk.

With `here` the file system is one of this machine's kernel, on a loop device over a file that crashbpf-record --fuse serves. That takes
root; it is mounted where nobody else sees it. With KERNEL, a folder with boot/vmlinuz-* and lib/modules, it is one of a guest, by
crashbpf-record --guest. The guest has this machine's programs, so they are those of the rows in both.

Without ROW these are the rows of which a case fails by examples/found/found.json. A crash is seldom where it hurts, so calls that write,
sync or change names take longer here, by strace. Meanwhile bytes are written out, as a kernel may do at any time: sync_file_range asks for
it here, and a clock of the guest there. Of some rows the bytes wait as long as they do by default. Commits come each second, or each
fifth as by default. Which rows these are, and which calls take longer, stands in PACES.

A line for each row has how many images were judged, how many differ, and with which status the check ends how often. Once an image
of a row fails, or 400 are right, the others are left out, but for --all. With --store found.json has what was seen. The status is 1 where no image of a row fails.

FOLDER keeps the recording, and ROW.seen what was found on each image, so that a run may be gone on with. It wants what found.py wants,
and e2fsprogs; qemu-system-common and fuse3 here, or qemu-system-x86, busybox-static, cpio and dmsetup for a guest.
"""
import hashlib
import json
import os
import shlex
import shutil
import signal
import subprocess
import sys
import tempfile
from collections import Counter
from dataclasses import dataclass
from pathlib import Path

sys.dont_write_bytecode = True

import rooms

rooms.enter()

import found
from names_in_guest import Unreadable, run, spans
from notation import FLUSH, FUA, MARK, SECTOR, TOP, entries_of

from commands.each.image_file import ImageFile
from commands.record import guest

SECTORS = 131072
# Asks again and again that the files of a folder are written out.
WRITER = TOP / "tests/by_hand/writer.py"
CALLS = "write,pwrite64,writev,pwritev,ftruncate,rename,renameat,renameat2,unlink,unlinkat,link,linkat,fsync,fdatasync,msync"
# How many images of a row are judged where none fails, but for --all.
MOST = 400
# A row that takes longer than this in the guest is ended there.
ROW_SECONDS = 1500


@dataclass(frozen=True)
class Pace:
    """How a row is run: how long each of some calls takes, in milliseconds; whether only those on this file do; whether the kernel writes
    bytes out at once, or leaves them to the commits; whose bytes these are, here, by their files' names; and the seconds between commits, of
    which the default is 5."""

    slow: int = 400
    calls: str = CALLS
    file: str = ""
    is_late: bool = False
    written: str = "*"
    each: int = 1


PACES = {
    # (the log is overwritten before the database is synced)
    "kyoto-nommap": Pace(written="*.wal", each=5),
    "sqlite-delete-normal": Pace(each=5),
    "git": Pace(1200, "rename,renameat,link,linkat", is_late=True),
    "git-all": Pace(0),
    "git-gc": Pace(1200, "rename,renameat,unlink,unlinkat", is_late=True),
    "postgres": Pace(1500, "openat,write", "postmaster.pid", is_late=True),
    "dpkg-unsafe": Pace(0, is_late=True),
    "sed": Pace(0, is_late=True),
    "ed": Pace(1500, "openat,write", "text", is_late=True),
    "nano": Pace(1500, "openat,write", "text", is_late=True),
    "maildrop": Pace(0),
    "procmail": Pace(0),
    "python-maildir": Pace(0),
    "tune2fs-uuid": Pace(100),
}


def pace(row):
    return PACES.get(row.name, Pace())


def chosen(names):
    """Returns the rows that are asked for, or those that fail by the table."""
    stored = json.loads(found.STORED.read_text())
    return [it for it in found.ROWS if (it.name in names if names else it.name in stored and stored[it.name]["failing"])]


# What is run


def words_of(row, files):
    """Returns the words by which a row is run, at its pace."""
    it = pace(row)
    if not it.slow:
        return [*row.program]
    # (a program may name it by its path, or in its folder)
    path = ("-P", f"{files}/{it.file}", "-P", it.file) if it.file else ()
    kinds = ("-e", f"trace={it.calls}", "-e", f"inject={it.calls}:delay_exit={1000 * it.slow}")
    return ["strace", "-f", "--seccomp-bpf", "-qq", "-o", "/dev/null", *path, *kinds, *row.program]


def lines_of(row, top, writes_out):
    """Returns the lines of a row in the script. `writes_out` are those by which bytes are written out soon, or wait for a commit."""
    files = f"{top}/files/{row.name}"
    return [
        f"mount -o remount,commit={pace(row).each} {top} || exit 1",
        *writes_out(row, files),
        f"sync -f {top} && mark {row.name}:begin",
        f"FILES={files} timeout {ROW_SECONDS} {shlex.join(map(str, words_of(row, files)))} || echo '{row.name}: status' $?",
        f"mark {row.name}:end && sync -f {top} && mark {row.name}:synced",
        '[ -z "$writer" ] || kill $writer; writer=',
    ]


def in_guest(row, files):
    """The lines by which a guest's clock writes bytes out soon, or late."""
    soon, old = (500, 3000) if pace(row).is_late else (5, 5)
    return [f"echo {soon} >/proc/sys/vm/dirty_writeback_centisecs && echo {old} >/proc/sys/vm/dirty_expire_centisecs"]


def here(row, files):
    """The lines by which bytes are written out soon on this machine."""
    return [] if pace(row).is_late else [f"{shlex.join([sys.executable, str(WRITER), files, pace(row).written])} & writer=$!"]


def laid(rows, base):
    """Makes what each row has at first, in a folder of its name."""
    base.mkdir()
    for row in rows:
        with tempfile.TemporaryDirectory(prefix="crashbpf-found.") as room:
            options = found.options(row, room)
            if "--base" in options:
                shutil.move(Path(room, "base/files"), base / row.name)
            else:
                (base / row.name).mkdir()


def kept_by(words):
    """Runs crashbpf-record, which ends what it started when it is ended itself."""
    environment = {"LOG_SIZE": "512M", "TIMEOUT": "7200", **found.surroundings("/tmp")}
    running = subprocess.Popen([TOP / "commands/record/crashbpf-record", *words], env=environment, cwd=TOP, stdin=subprocess.DEVNULL)
    try:
        if running.wait() == 2:
            sys.exit("there is no log")
    finally:
        running.terminate()
        running.wait()


HERE = """\
loop=$(losetup -f --show "$DEVICE") || exit 1
leave() { cd / && umount {top}; losetup -d $loop; }
trap leave EXIT
mount -t ext4 $loop {top} || exit 1
printf '#!/bin/sh\nRECORDING=%s exec {mark} "$@"\n' "$RECORDING" >{top}.mark/mark && chmod +x {top}.mark/mark || exit 1
unset RECORDING && PATH={top}.mark:$PATH
"""


def recorded_here(folder, rows):
    """Records the rows on this machine."""
    top, script = folder / "mounted", folder / "rows.sh"
    for it in (top, Path(f"{top}.mark")):
        it.mkdir()
    guest.lay_disk(folder, str(folder / "files"), guest.Guest("", "ext4", SECTORS))
    begin = HERE.replace("{top}", str(top)).replace("{mark}", str(TOP / "commands/record/mark"))
    script.write_text("\n".join([begin, *(line for row in rows for line in lines_of(row, top, here)), ""]))
    words = ["--fuse", "--sectors", str(SECTORS), "--base", folder / guest.BASE, folder / "recording", "--", "unshare", "-m", "sh", script]
    kept_by(words)


def recorded_in_guest(folder, kernel, rows):
    """Records the rows in a guest."""
    script = folder / "rows.sh"
    script.write_text("\n".join([*(line for row in rows for line in lines_of(row, guest.TOP, in_guest)), ""]))
    kept_by(["--guest", kernel, "--sectors", str(SECTORS), "--base", folder / "files", folder / "recording", "--", "sh", script])
    shutil.copyfile(folder / "recording" / guest.BASE, folder / guest.BASE)


def recorded(folder, kernel, rows):
    """Records the rows. Returns the log and the disk's base."""
    log = folder / "recording/writes.log"
    if not log.exists():
        laid(rows, folder / "files")
        recorded_here(folder, rows) if kernel == "here" else recorded_in_guest(folder, Path(kernel).resolve(), rows)
    return log, folder / guest.BASE


# What it leaves


def laid_out(image, name, room):
    """Lays out the files of a row, once e2fsck has replayed the journal. Returns their folder."""
    copy = f"{room}/image"
    image.copy(copy)
    done = run(["e2fsck", "-fy", copy])
    if done.returncode & ~1:
        raise Unreadable(f"e2fsck: {done.stdout}")
    run(["debugfs", "-R", f'rdump "/files/{name}" "{room}"', copy])
    os.unlink(copy)
    return Path(room, name)


def sum_of(files):
    """Returns a sum of the names and bytes of files."""
    made = hashlib.sha256()
    for path in sorted(files.rglob("*")):
        content = path.read_bytes() if path.is_file() and not path.is_symlink() else b""
        made.update(b"%s\0%d\0%s" % (os.fsencode(path.relative_to(files)), len(content), content))
    return made.hexdigest()


def verdict(row, files, marks, room):
    """Gives the files to the row's check. Returns its status, and the end of what it says."""
    environment = {**found.surroundings(room), "CRASH_MARKS": str(marks), "FILES": str(files)}
    words, limit = ["sh", "-c", row.check], 60
    running = subprocess.Popen(words, cwd=files, env=environment, stdin=subprocess.DEVNULL, stdout=subprocess.PIPE, stderr=subprocess.STDOUT, start_new_session=True)
    try:
        said = running.communicate(timeout=limit)[0].decode(errors="replace")
    except subprocess.TimeoutExpired:
        running.kill()
        return "out of time", ""
    finally:
        try:
            os.killpg(running.pid, signal.SIGKILL)
        except ProcessLookupError:
            pass
    return running.returncode, said[-300:]


class Judge:
    """Judges the images of a row. Each has a line in FOLDER/ROW.seen."""

    def __init__(self, folder, row):
        self.row, self.path, self.verdicts = row, folder / f"{row.name}.seen", {}
        lines = [json.loads(it) for it in self.path.read_text().splitlines()] if self.path.exists() else []
        self.known = {(it["cut"], it["lost"]): it for it in lines}
        self.verdicts = {(it["sum"], it["marks"]): (it["status"], it["said"]) for it in lines}

    def judged(self, key, file, marks):
        """Returns what is known of an image, by its cut and what is lost."""
        if key not in self.known:
            with tempfile.TemporaryDirectory(prefix="crashbpf-found.") as room:
                files = laid_out(file, self.row.name, room)
                which = sum_of(files), marks
                if which not in self.verdicts:
                    self.verdicts[which] = verdict(self.row, files, marks, room)
            status, said = self.verdicts[which]
            line = {"cut": key[0], "lost": key[1], "marks": marks, "sum": which[0], "status": status, "said": said}
            with open(self.path, "a") as out:
                out.write(json.dumps(line) + "\n")
            self.known[key] = line
        return self.known[key]


def in_flight(entries, cut):
    """Returns the numbers of the writes that a crash at a cut may lose: those after the last flush, but for FUA."""
    found = []
    for number, it in enumerate(entries[:cut]):
        if it.flags & FLUSH:
            found = []
        if it.data and not it.flags & (FUA | MARK):
            found.append(number)
    return found


def sectors_of(entries, known):
    """Returns the sectors that some entries write, over those that are known."""
    found = dict(known)
    for it in entries:
        if not it.flags & MARK:
            found.update((it.sector + at, it.data[SECTOR * at : SECTOR * (at + 1)]) for at in range(len(it.data) // SECTOR))
    return found


class Disk:
    """The disk of a recording as a crash leaves it, in a file."""

    def __init__(self, path, base):
        self.base, self.held = base.read_bytes(), {}
        self.file = ImageFile(path, len(self.base) // SECTOR, base, False)

    def hold(self, sectors):
        """Has the file hold some sectors, and else what the base has."""
        old = {at: self.base[SECTOR * at : SECTOR * (at + 1)] for at in self.held if at not in sectors}
        changed = old | {at: data for at, data in sectors.items() if self.held.get(at) != data}
        self.file.patch(b"".join(at.to_bytes(8, "little") + data for at, data in changed.items()))
        self.held = sectors


def crashes(entries, first, last):
    """Yields what a crash may leave of a row: the cut, and the write that is lost, or none. Cuts after marks come first."""
    cuts = range(first + 1, last + 1)
    yield from ((cut, None) for cut in cuts if entries[cut - 1].flags & MARK)
    yield from ((cut, None) for cut in cuts)
    yield from ((cut, number) for cut in cuts for number in in_flight(entries, cut))


def judged(folder, row, entries, base, place, is_all):
    """Judges the images of a row. Returns their lines."""
    _, first, last, _ = place
    judge, lines, begun = Judge(folder, row), {}, sectors_of(entries[:first], {})
    most = sum(bool(it.flags & MARK) for it in entries[first + 1 : last]) - 1
    with tempfile.TemporaryDirectory(dir=folder) as room:
        disk = Disk(os.path.join(room, "image"), base)
        for cut, lost in crashes(entries, first, last):
            marks = sum(bool(it.flags & MARK) for it in entries[first + 1 : cut])
            disk.hold(sectors_of((it for number, it in enumerate(entries[first:cut], first) if number != lost), begun))
            line = lines[cut, lost] = judge.judged((cut, lost), disk.file, min(marks, most))
            if not is_all and (line["status"] != 0 or len(lines) == MOST):
                break
    return [*lines.values()]


def kernel_of(word):
    """Returns the first two numbers of the kernel's version."""
    release = os.uname().release if word == "here" else next(Path(word).glob("boot/vmlinuz-*")).name.removeprefix("vmlinuz-")
    return ".".join(release.split(".")[:2])


def told(row, lines):
    """Returns the line of a row, and what is stored of it."""
    statuses = Counter(f"status {it['status']}" for it in lines if it["status"] != 0)
    states = len({(it["sum"], it["marks"]) for it in lines})
    seen = {"images": len(lines), "states": states, "seen": sorted(statuses)}
    return f"{row.name}: {len(lines)} images, {states} states, {dict(statuses) or 'none fails'}", seen


def main(words):
    is_stored, is_all = "--store" in words, "--all" in words
    words = [it for it in words if it not in ("--store", "--all")]
    if len(words) < 2:
        sys.exit(__doc__)
    for it in (signal.SIGTERM, signal.SIGHUP):
        signal.signal(it, lambda number, _: sys.exit(128 + number))
    folder, rows = Path(words[0]).resolve(), chosen(words[2:])
    folder.mkdir(exist_ok=True)
    log, base = recorded(folder, words[1], rows)
    places, entries, unseen = {it[0]: it for it in spans(log)}, entries_of(log.read_bytes()), 0
    for row in rows:
        if row.name not in places:
            continue
        line, seen = told(row, judged(folder, row, entries, base, places[row.name], is_all))
        print(line, flush=True)
        unseen += not seen["seen"]
        if is_stored:
            found.store_seen(row.name, kernel_of(words[1]), seen)
    return unseen > 0


if __name__ == "__main__":
    sys.exit(main(sys.argv[1:]))
