#!/usr/bin/env python3
"""Tests crashbpf-record, in_flight.py and cut_log.py with the strace and the QEMU at hand, and with a kernel guest too. The gate
doesn't run it, since it needs these; it runs tests/gate/traced.py, which has strace's texts.

    python3 tests/by_hand/record.py [KERNEL]

By strace programs are recorded that write in each way that is followed, in threads and processes too, that change names and sizes,
and those that have to be refused, with the call that shows why; of each the files are compared with those that the log has, of names also those at some marks. By FUSE a few commands are
recorded, and their logs are compared with what they did; of each the last image has to be the disk. KERNEL is a folder as `guest` takes it. With it scripts are recorded in virtual machines: what stands before a mark of each
kind, what a program finds by --guest on each kind of file system and which files its images have, whether a file is there at its mark though all that is in flight is lost, and how `guest` ends where something is wrong.

Prints a line for each that failed, and last `N passed, M failed`. It wants what these want, e2fsprogs, and a C compiler, with KERNEL
xfsprogs, btrfs-progs and f2fs-tools. It
takes half a minute, and with KERNEL three minutes of processor time more; on a busy machine that was twenty minutes.
"""
import os
import signal
import subprocess
import sys
import tempfile
import time
from pathlib import Path

sys.dont_write_bytecode = True

import rooms

rooms.enter()

from notation import DISCARD, FLUSH, FUA, MARK, SECTOR, TOP, D, F, M, S, W, log
from rows.recording import entries_of

from commands.record import systems

FOLDER = TOP / "examples/recording"
RECORD = TOP / "commands/record/crashbpf-record"

WRITES = """\
import os

recording = os.environ["RECORDING"]


def mark(name):
    with open(recording + "/qemu.log", "rb") as log, open(recording + "/marks", "a") as marks:
        marks.write(f"{int.from_bytes(log.read(24)[16:], 'little')} {name}\\n")


device = os.open(os.environ["DEVICE"], os.O_RDWR)
mark("none")
os.pwrite(device, b"\\x11" * 1024, 512)
os.fsync(device)
mark("one")
os.pwrite(device, b"\\x22" * 100, 1000)
mark("two words")
os.fdatasync(device)
os.fsync(device)
os.pwrite(device, b"\\x33" * 512, 0)
os.system("mark 'in a child'")
os.close(device)
os.system("fallocate -p -o 512 -l 512 $DEVICE")
os.system("mark end")
"""

# A flush without a write since the last one isn't logged, and closing the file, in a child too, is a flush.
WRITTEN = [
    *[M("none"), W(1, 2, 0x11), F, M("one")],
    *[S(1, b"\x11" * 488 + b"\x22" * 100 + b"\x11" * 436), M("two words"), F],
    *[W(0, 1, 0x33), F, M("in a child"), D(1, 1), F, M("end")],
]

# The name, the number of sectors, the command, its status, and the entries, where they are compared.
RECORDED = [
    ("writes", 64, ["python3", "-c", WRITES], 0, WRITTEN),
    ("nothing", 8, ["true"], 0, []),
    ("a mark alone", 8, ["mark", "a mark"], 0, [M("a mark")]),
    # no command asks for a flush here, and the log has one before the mark
    ("a file that was closed", 8, ["sh", "-c", "yes | head -c 512 | dd of=$DEVICE conv=notrunc; mark closed"], 0, [S(0, b"y\n" * 256), F, M("closed")]),
    ("a command that fails", 8, ["sh", "-c", "exit 7"], 7, []),
    ("mkfs", 16384, ["sh", "-c", 'mkfs.ext4 -q "$DEVICE" && sync "$DEVICE" && mark formatted'], 0, None),
]


def image_of(entries, device):
    """What a device holds after entries of which nothing is lost."""
    image = bytearray(device)
    for it in entries:
        if not it.flags & MARK:
            written = bytes(SECTOR * it.count) if it.flags & DISCARD else it.data
            image[SECTOR * it.sector : SECTOR * (it.sector + it.count)] = written
    return bytes(image)


def recorded(folder, name, sectors, command, status, entries):
    """What is wrong with a recording by FUSE."""
    out = Path(folder, name.replace(" ", "_"))
    done = subprocess.run([RECORD, "--fuse", "--sectors", str(sectors), out, "--", *command], capture_output=True, text=True)
    if done.returncode != status or not (out / "writes.log").exists():
        return f"{name}: status {done.returncode}, {done.stdout}{done.stderr}"
    content = (out / "writes.log").read_bytes()
    if image_of(entries_of(content), bytes(SECTOR * sectors)) != (out / "disk.img").read_bytes():
        return f"{name}: the last image isn't the disk"
    if entries is not None and content != log(entries):
        return f"{name}: another log"
    return None if "device" in {it.name for it in out.iterdir()} else f"{name}: no device"


def at(process):
    """The folder in which a process is."""
    try:
        return os.readlink(f"/proc/{process}/cwd")
    except OSError:
        return None


def heeding():
    """Has a new process heed a signal that this one ignores, as one that nohup started does: a shell can't take it otherwise."""
    signal.signal(signal.SIGHUP, signal.SIG_DFL)


def hung_up(folder):
    """What is wrong with a recording by FUSE whose terminal goes: it ends its daemon."""
    out = Path(folder, "hung_up")
    running = subprocess.Popen([RECORD, "--fuse", "--sectors", "8", out, "--", "sleep", "2"], preexec_fn=heeding)
    while running.poll() is None and not (out / "pid").exists():
        time.sleep(0.1)
    time.sleep(0.5)
    running.send_signal(signal.SIGHUP)
    running.wait(timeout=60)
    daemon = int((out / "pid").read_text()) if (out / "pid").exists() else None
    left = daemon and at(daemon) is not None
    if left:
        os.kill(daemon, signal.SIGTERM)
        time.sleep(1)
    return None if running.returncode == 2 and not left else f"crashbpf-record, hung up: status {running.returncode}, the daemon is {'there' if left else 'gone'}"


def based(folder):
    """What is wrong with a device that begins with a base, and with one whose log isn't the disk."""
    base, out = Path(folder, "base"), Path(folder, "based")
    base.write_bytes(bytes(range(250)) * 4)
    write = "printf XY | dd of=$DEVICE bs=2 seek=300 conv=notrunc 2>&1"
    done = subprocess.run([RECORD, "--fuse", "--base", base, out, "--", "sh", "-c", write], capture_output=True, text=True)
    before = base.read_bytes().ljust(1024, b"\0")
    wanted = log([S(1, before[512:600] + b"XY" + before[602:]), F])
    if done.returncode or (out / "writes.log").read_bytes() != wanted:
        return [f"a device with a base: {done}"]
    unseen = "printf Z | dd of=$RECORDING/disk.img bs=1 seek=10 conv=notrunc 2>&1"
    done = subprocess.run([RECORD, "--fuse", "--base", base, f"{out}_unseen", "--", "sh", "-c", unseen], capture_output=True, text=True)
    good = done.returncode == 2 and "the last image of the log isn't the disk" in done.stderr and not Path(f"{out}_unseen/writes.log").exists()
    return [None, None if good else f"a write that the log doesn't have: {done}"]


# By strace

# A program that writes a file in all ways, at random, in a thread and a child too. The places of its writes are its own.
WRITES_ALL = """\
import os, random, sys, threading
chance = random.Random(int(sys.argv[1]))
files = os.environ["FILES"]
names = [files + "/" + it for it in ("one", "two", "in/three")]
os.makedirs(files + "/in", exist_ok=True)


def data(most):
    return bytes([chance.randrange(256)]) * chance.randrange(most)


def copy(own, fd, other):
    size = own.randrange(1, 900)
    if own.randrange(2):
        os.sendfile(fd, other, own.choice((None, own.randrange(3000))), size)
    else:
        os.copy_file_range(other, fd, size, own.choice((None, own.randrange(3000))), own.choice((None, own.randrange(3000))))


def work(seed, path, flags):
    own = random.Random(seed)
    fd = os.open(path, os.O_RDWR | os.O_CREAT | flags)
    # a file from outside
    other = os.open(sys.argv[2], os.O_RDONLY)
    for _ in range(40):
        kind = own.randrange(15)
        if kind < 3:
            os.pwrite(fd, data(900), own.randrange(6000))
        elif kind < 5:
            os.write(fd, data(1500))
        elif kind == 5:
            os.lseek(fd, own.randrange(4000), own.choice((0, 0, 2)))
        elif kind == 6:
            os.read(fd, own.randrange(600))
        elif kind == 7:
            own.choice((os.fsync, os.fdatasync, lambda _: os.sync()))(fd)
        elif kind == 8:
            os.writev(fd, [data(300), b"", data(300)])
        elif kind == 9:
            os.pwritev(fd, [data(300), data(700)], own.randrange(3000), own.choice((0, os.RWF_DSYNC, os.RWF_SYNC)))
        elif kind == 10:
            more = os.dup(fd)
            os.write(more, data(100))
            os.close(more)
        elif kind == 11 and not flags & os.O_APPEND:
            copy(own, fd, other)
        elif kind == 12 and not flags & os.O_APPEND and os.fstat(fd).st_size > 1000:
            os.copy_file_range(fd, fd, 500, 0, 5000)
        elif kind == 13:
            own.choice((lambda: os.read(other, 100), lambda: os.lseek(other, own.randrange(2000), 0)))()
        elif os.fstat(fd).st_size < 9000:
            os.posix_fallocate(fd, 0, os.fstat(fd).st_size + own.randrange(1, 900))
    os.close(fd)


threads = [threading.Thread(target=work, args=(chance.randrange(1000), name, chance.choice((0, os.O_APPEND, os.O_DSYNC)))) for name in names[:2]]
for it in threads:
    it.start()
for it in threads:
    it.join()
shared = os.open(names[2], os.O_RDWR | os.O_CREAT)
if os.fork() == 0:
    os.write(shared, b"child" * 200)
    os._exit(0)
os.wait()
os.write(shared, b"parent" * 100)
"""

ADDED = """\
#define _GNU_SOURCE
#include <fcntl.h>
#include <linux/fs.h>
#include <stdio.h>
#include <stdlib.h>
#include <string.h>
#include <sys/ioctl.h>
#include <sys/mman.h>
#include <sys/sendfile.h>
#include <sys/socket.h>
#include <sys/syscall.h>
#include <unistd.h>

int main(int count, char **words)
{
	int fd, other = open(words[0], O_RDONLY);
	char path[4096], params[256] = { 0 };

	snprintf(path, sizeof path, "%s/db", getenv("FILES"));
	fd = open(path, O_RDWR | O_CREAT, 0644);
	if (write(fd, params, 256) != 256 || ftruncate(fd, 8192))
		return 3;
	switch (count > 1 ? atoi(words[1]) : 0) {
	case 1: {
		char *mapped = mmap(0, 4096, PROT_READ | PROT_WRITE, MAP_SHARED, fd, 0);
		return mapped == MAP_FAILED;
	}
	case 2: {
		char *mapped = mmap(0, 4096, PROT_READ, MAP_SHARED, fd, 0);
		return mprotect(mapped, 4096, PROT_READ | PROT_WRITE);
	}
	case 3:
		return copy_file_range(other, 0, fd, 0, 512, 0) != 512;
	case 4:
		return sendfile(fd, other, 0, 512) != 512;
	case 5: {
		int ends[2];
		return pipe(ends) || write(ends[1], "x", 1) != 1 || splice(ends[0], 0, fd, 0, 1, 0) != 1;
	}
	case 6:
		return syscall(SYS_io_uring_setup, 4, params) < 0 ? 77 : 0;
	case 7:
		snprintf(params, sizeof params, "%s/other", getenv("FILES"));
		return rename(path, params);
	case 8:
		return unlink(path) || write(fd, "x", 1) != 1;
	case 9:
		return ftruncate(fd, 100) || write(fd, "x", 1) != 1;
	case 10: {
		int again;
		snprintf(params, sizeof params, "/proc/self/fd/%d", fd);
		again = open(params, O_WRONLY);
		return write(again, "yyyy", 4) != 4;
	}
	case 11: {
		unsigned long context = 0;
		struct { unsigned long data; unsigned key, flags; unsigned short opcode; short priority; unsigned file; unsigned long buf, bytes; long offset; unsigned long more[2]; }
			block = { 0, 0, 0, 1, 0, fd, (unsigned long)params, 256, 0, { 0 } }, *blocks = &block;
		return syscall(SYS_io_setup, 1, &context) || syscall(SYS_io_submit, context, 1, &blocks) != 1;
	}
	}
	return 0;
}
"""

# The number of a case of ADDED, and what is said; none where it is recorded.
SAID = {
    0: None,
    1: "mmap(NULL, 4096, PROT_READ|PROT_WRITE, MAP_SHARED, ",
    2: "PROT_READ|PROT_WRITE) = 0: a shared mapping of a recorded file",
    3: None,
    4: None,
    5: None,
    6: "io_uring_setup(",
    7: "db is renamed, and names are left out",
    8: "db is written after a name or a size was changed",
    9: "db is written after a name or a size was changed",
    10: None,
    11: "io_submit(",
}


def files_of(out):
    """The files of a recording, as the last image of its log has them."""
    from commands.record import layout

    found, sectors = layout.read_map((out / "files.txt").read_text())
    base = (out / "base.img").read_bytes() if (out / "base.img").exists() else bytes(SECTOR * sectors)
    image = image_of(entries_of((out / "writes.log").read_bytes()), base)
    return {it.name.decode(): image[SECTOR * it.first :][: it.length] for it in found}


def traced(folder, seed):
    """What is wrong with a recording of files that are written at random, over what a first one left."""
    out, base = Path(folder, f"traced_{seed}"), Path(folder, f"traced_{seed - 1}", "files")
    options = ["--base", base] if base.exists() else []
    done = subprocess.run([RECORD, *options, out, "--", sys.executable, "-c", WRITES_ALL, str(seed), __file__], capture_output=True, text=True)
    if done.returncode:
        return f"written at random, {seed}: status {done.returncode}, {done.stderr}"
    found = files_of(out)
    wanted = {str(it.relative_to(out / "files")): it.read_bytes() for it in (out / "files").rglob("*") if it.is_file()}
    return None if found == wanted else f"written at random, {seed}: the last image isn't the files"


# A program that makes, renames, unlinks, cuts off and writes files in folders, at random. It makes copies of all outside, each with a mark.
CHANGES_NAMES = """\
import os, random, shutil, subprocess, sys
chance = random.Random(int(sys.argv[1]))
os.chdir(os.environ["FILES"])


def found(kind):
    return [os.path.relpath(os.path.join(here, it)) for here, folders, files in os.walk(".") for it in (folders if kind else files)]


def free():
    name = os.path.join(chance.choice([".", *found(True)]), chance.choice("abcdef"))
    return name if not os.path.lexists(name) else None


def step(turn):
    # (by `strict` a crash leaves too many sets of names where no folder is synced for long)
    for it in [".", *found(True)] if turn % 10 == 9 else ():
        fd = os.open(it, os.O_RDONLY)
        os.fsync(fd)
        os.close(fd)
    kind, files, folders, new = chance.randrange(23), found(False), found(True), free()
    if kind < 2 and new:
        os.close(os.open(new, os.O_WRONLY | os.O_CREAT | os.O_EXCL))
    elif kind < 6 and files:
        flags = chance.choice((0, 0, os.O_APPEND, os.O_TRUNC, os.O_DSYNC))
        fd = os.open(chance.choice(files), os.O_RDWR | flags)
        if os.fstat(fd).st_size < 9000:
            os.pwrite(fd, bytes([chance.randrange(256)]) * chance.randrange(1, 1500), chance.choice((0, os.fstat(fd).st_size, chance.randrange(3000))))
        if chance.random() < 0.3:
            os.fsync(fd)
        if chance.random() < 0.2 and os.fstat(fd).st_nlink:
            os.unlink(os.readlink("/proc/self/fd/%d" % fd))
            os.write(fd, b"gone" * 100)
        os.close(fd)
    elif kind == 6 and files:
        os.truncate(chance.choice(files), chance.randrange(5000))
    elif kind == 7 and files:
        os.unlink(chance.choice(files))
    elif kind < 10 and files and new:
        os.rename(chance.choice(files), new)
    elif kind == 10 and len(files) > 1:
        os.replace(*chance.sample(files, 2))
    elif kind == 11 and files and new:
        os.link(chance.choice(files), new)
    elif kind == 12 and new:
        os.mkdir(new)
    elif kind == 13 and folders and new:
        one = chance.choice(folders)
        if not new.startswith("./" + one) and not new.startswith(one):
            os.rename(one, new)
    elif kind == 14:
        for it in folders:
            if not os.listdir(it):
                os.rmdir(it)
                break
    elif kind == 20 and folders and new:
        one, at = chance.choice(folders), os.getcwd()
        if not new.startswith("./" + one) and not new.startswith(one):
            os.chdir(one)
            os.rename(os.path.join(at, one), os.path.join(at, new))
            os.mkdir(os.path.join(at, one))
            with open("inside", "a") as file:
                file.write("inside")
            os.replace("inside", chance.choice("gh"))
            os.chdir(at)
    elif kind == 21 and files and new:
        fd = os.open(chance.choice(files), os.O_RDWR)
        own = "/proc/self/fd/%d" % fd
        os.link(own, new, follow_symlinks=True)
        os.unlink(os.readlink(own))
        os.pwrite(fd, b"linked", chance.randrange(1000))
        os.close(os.open(new, chance.choice((os.O_RDONLY, os.O_RDWR)) | chance.choice((0, os.O_TRUNC))))
        os.truncate(new, chance.randrange(3000))
        os.close(fd)
    elif kind == 22 and folders and new:
        fd = os.open(chance.choice(folders), os.O_RDONLY)
        os.mkdir("v", dir_fd=fd)
        os.rename("v", "w", src_dir_fd=fd, dst_dir_fd=fd)
        os.rmdir("w", dir_fd=fd)
        os.chmod(new if os.path.lexists(new) else ".", 0o755)
        os.close(fd)
    elif kind == 18 and new:
        os.symlink(chance.choice([*files, *folders, "nowhere", "../a", "."]), new)
    elif kind == 19 and new:
        os.mkfifo(new)
        os.rename(new, new + "f")
        os.unlink(new + "f")
    elif kind == 16 and files:
        shutil.copyfile(chance.choice([*files, sys.argv[2]]), new or chance.choice(files) + "x")
    elif kind == 17 and len(files) > 1:
        one, two = chance.sample(files, 2)
        if not os.path.samefile(one, two):
            subprocess.run(chance.choice((["cp", one, two], ["install", one, two], ["sh", "-c", 'cat "$0" >"$1"', one, two])))
    elif kind == 15:
        fd = os.open(chance.choice([".", *folders]), os.O_RDONLY)
        os.fsync(fd)
        os.close(fd)


for turn in range(150):
    try:
        step(turn)
    except OSError:
        pass
    if turn % 30 == 29:
        shutil.copytree(".", os.path.join(sys.argv[3], str(turn)), symlinks=True)
        with open(os.environ["RECORDING"] + "/marks", "a") as marks:
            marks.write("0 %d\\n" % turn)
"""


def what(path):
    """What a path is of: a link's text, nothing for a folder, the bytes of a file."""
    return os.readlink(path) if path.is_symlink() else None if path.is_dir() else path.read_bytes()


def below(folder):
    """What a folder holds: a map of paths to what they are of."""
    return {str(it.relative_to(folder)): what(it) for it in Path(folder).rglob("*")}


def named(folder, seed, table):
    """What is wrong with a recording of names and sizes that are changed at random, over what an earlier one left; each second one by pages."""
    out, base = Path(folder, f"named_{table}_{seed}"), Path(folder, f"named_{table}_{seed - 1}", "files")
    options = ["--base", base] if base.exists() else []
    copies = Path(folder, f"copies_{table}_{seed}")
    copies.mkdir()
    words = [RECORD, "--files", table, "--parts", ("calls", "pages")[seed % 2], *options, out, "--", sys.executable, "-c", CHANGES_NAMES, str(seed), __file__, copies]
    done = subprocess.run(words, capture_output=True, text=True)
    if done.returncode:
        return f"names at random, {seed}, {table}: status {done.returncode}, {done.stderr}"
    entries = entries_of((out / "writes.log").read_bytes())
    marks = [(number, copies / it.text.decode()) for number, it in enumerate(entries) if it.flags & MARK]
    if [it.name for _, it in marks] != ["29", "59", "89", "119", "149"]:
        return f"names at random, {seed}, {table}: other marks: {marks}"
    for number, wanted in [*marks, (len(entries), out / "files")]:
        fault = shown(out, image_of(entries[:number], (out / "base.img").read_bytes()), wanted)
        if fault:
            return f"names at random, {seed}, {table}: {fault}"
    return None


def shown(out, content, wanted):
    """What is wrong with the files of an image, which should be those of a folder."""
    image, seen = out / "image", out / f"seen_{wanted.name}"
    image.write_bytes(content)
    show = [RECORD.parent / "crashbpf-files", out / "files.txt", image, "--", "cp", "-a", ".", seen]
    done = subprocess.run(show, capture_output=True, text=True)
    if done.returncode:
        return f"crashbpf-files, status {done.returncode}, {done.stderr}"
    return None if below(seen) == below(wanted) else f"an image isn't what was there: {wanted}"


def refused_calls(folder):
    """What is wrong with how calls are refused that could hide a write."""
    source, program = Path(folder, "added.c"), Path(folder, "added")
    source.write_text(ADDED)
    subprocess.run(["cc", "-w", "-o", program, source], check=True)
    found = []
    for number, says in SAID.items():
        out = Path(folder, f"added_{number}")
        done = subprocess.run([RECORD, out, "--", program, str(number)], capture_output=True, text=True)
        if done.returncode == 77:
            print(f"not run: case {number}, since this kernel doesn't have its call")
            continue
        if says is None:
            good = done.returncode == 0 and (out / "writes.log").exists()
        else:
            good = done.returncode == 2 and says in done.stderr and not (out / "writes.log").exists()
        found.append(None if good else f"case {number}: status {done.returncode}, {done.stderr}")
    return found


def traced_ends(folder):
    """What is wrong with how a recording by strace ends: by a signal, with a program that fails, with nothing to record."""
    found = []
    out = Path(folder, "interrupted")
    running = subprocess.Popen([RECORD, out, "--", "sh", "-c", "echo $$ >$RECORDING/shell; sleep 1000; true"], stderr=subprocess.PIPE, text=True)
    while running.poll() is None and not (out / "shell").exists():
        time.sleep(0.1)
    time.sleep(0.5)
    running.send_signal(signal.SIGTERM)
    running.communicate(timeout=60)
    shell = int((out / "shell").read_text())
    left = os.path.exists(f"/proc/{shell}")
    found.append(None if running.returncode == 2 and not left else f"interrupted: status {running.returncode}, the program is {'there' if left else 'gone'}")
    rows = {
        "a program that fails": (["sh", "-c", "echo a >$FILES/a; exit 7"], 7, "a is taken to be there from the start"),
        "a program that a signal ends": (["sh", "-c", "echo a >$FILES/a; kill -9 $$"], 137, "a is taken to be there from the start"),
        "a program that writes elsewhere": (["sh", "-c", "echo a >$RECORDING/a"], 2, "so nothing was recorded"),
        "no program": (["/no/program"], 2, "no process was seen"),
        "a link": (["sh", "-c", "echo a >$FILES/a; ln -s a $FILES/b"], 2, "gets another name"),
    }
    for name, (words, status, says) in rows.items():
        done = subprocess.run([RECORD, Path(folder, name.replace(" ", "_")), "--", *words], capture_output=True, text=True)
        found.append(None if (done.returncode, says in done.stderr) == (status, True) else f"{name}: status {done.returncode}, {done.stderr}")
    again = subprocess.run([RECORD, out, "--", "true"], capture_output=True, text=True)
    return found + [None if again.returncode == 2 and "can't be made: File exists" in again.stderr else f"a folder that is there: {again}"]


def in_flight():
    """Where the QEMU at hand puts a write that is in flight: docs/RECORDING.md says before the flush."""
    done = subprocess.run([sys.executable, FOLDER / "in_flight.py"], capture_output=True, text=True)
    good = done.returncode == 1 and done.stdout.endswith("sector 1 before the flush\n")
    return None if good else f"in_flight.py: status {done.returncode}, {done.stdout}{done.stderr}"


# What cut_log.py makes of a log device: what the device holds, and how many bytes of it are the log, if it is whole.
END = M("dm-log-writes-end")
REST = bytes(range(256)) * 10
WHOLE = log([W(1, 2, 0x11), D(1, 3), F, END])
DEVICES = [
    ("a log", WHOLE + REST, len(WHOLE)),
    ("a log with nothing after it", WHOLE, len(WHOLE)),
    ("a log that ends within its last entry", WHOLE[:-100], None),
    ("a log without its end", log([W(1, 2, 0x11), F, M("end")]) + REST, None),
    ("a log whose last entry has the text, and is no mark", log([S(0, b"dm-log-writes-end".ljust(SECTOR))]) + REST, None),
    ("no entry", log([]) + REST, None),
    ("no log", REST, None),
]


def cut(folder, name, content, length):
    """What is wrong with how a log is cut."""
    device = Path(folder, "device.log")
    device.write_bytes(content)
    done = subprocess.run([sys.executable, FOLDER / "cut_log.py", device], capture_output=True, text=True)
    wanted = (2, content) if length is None else (0, content[:length])
    return None if (done.returncode, device.read_bytes()) == wanted else f"cut_log.py, {name}: status {done.returncode}, {done.stderr}"


# Virtual machines

SECTORS = 16384

# Of three files one is flushed by the script, one by sync_mark, one by nobody.
MARKS = """\
mount -o commit=300 $DEVICE /mnt || exit 1
sync && mark begin
echo forgotten >/mnt/forgotten
mark bare
echo synced >/mnt/synced
sync_mark synced
echo flushed >/mnt/flushed
sync /mnt/flushed && mark flushed
umount /mnt
"""

# The name, the script, what its environment has besides, the status, and what standard error says.
REFUSED = [
    ("a script that fails", "exit 7", {}, 1, "the script ended with status 7"),
    ("a device that is left in use", "mkdir /other && mount $DEVICE /other", {}, 2, "isn't the mark dm-log-writes-end"),
    ("a log that is full", "mark begin; dd if=/dev/zero of=$DEVICE bs=64k count=9", {"LOG_SIZE": "256K"}, 2, "isn't the mark dm-log-writes-end"),
    ("too little time", "true", {"TIMEOUT": "1"}, 2, "didn't end within 1 seconds"),
    ("a number that is none", "true", {"TIMEOUT": "1m"}, 2, "TIMEOUT is no number"),
    ("a base that isn't there", "true", {"BASE": "/no/base"}, 2, "/no/base"),
    ("a command that isn't there", "true", {"COMMANDS": "no_such_command"}, 2, "there is no command no_such_command"),
]


class Guests:
    """The virtual machines of a folder, with a kernel. The device of each holds a new ext4, or zeros."""

    def __init__(self, folder, kernel):
        self.folder, self.kernel = Path(folder), kernel
        self.base = self.folder / "base.img"
        self.base.write_bytes(bytes(SECTOR * SECTORS))
        subprocess.run(["mkfs.ext4", "-q", "-E", "nodiscard", self.base], check=True)

    def command(self, out, script):
        return [FOLDER / "guest", self.kernel, str(SECTORS), out, script]

    def run(self, out, script, **environment):
        return subprocess.run(self.command(out, script), capture_output=True, text=True, env=os.environ | environment)

    def recorded(self, name, script, base):
        """The entries of a recording, what stood on the device before, and what is wrong with it."""
        out = self.folder / name
        done = self.run(out, script, **({"BASE": str(self.base)} if base else {}))
        if done.returncode:
            return [], b"", f"{name}: status {done.returncode}, {done.stderr}"
        content = (out / "writes.log").read_bytes()
        entries, before = entries_of(content), self.base.read_bytes() if base else bytes(SECTOR * SECTORS)
        fault = None
        if content != log(entries) or entries[-1] != END:
            fault = "the log isn't cut after its end"
        elif image_of(entries, before) != (out / "disk.img").read_bytes():
            fault = "the last image isn't the disk"
        elif {it.name for it in out.iterdir()} != {"console", "disk.img", "qemu.log", "writes.log"}:
            fault = "something is left"
        return entries, before, fault and f"{name}: {fault}"

    def left(self, out):
        """What a guest left that wasn't to be: a file, or a process."""
        files = [it.name for it in out.iterdir() if it.name != "console"] if out.exists() else []
        return files + [it for it in os.listdir("/proc") if it.isdigit() and at(it) == str(out)]


def between(entries, first, last):
    """The entries between two marks, and the last of them."""
    texts = [it.text.decode() if it.flags & MARK else None for it in entries]
    return entries[texts.index(first) : texts.index(last)]


def marks(guests):
    """What stands before marks: before that of `mark` nothing that the script didn't flush itself."""
    script = guests.folder / "marks.sh"
    script.write_text(MARKS)
    entries, _, fault = guests.recorded("marks", script, True)
    if fault:
        return [fault]
    found = []
    for first, last, wanted in [("begin", "bare", False), ("bare", "synced", True), ("synced", "flushed", True)]:
        these = between(entries, first, last)
        flushed = any(it.flags & FLUSH for it in these)
        written = any((last if wanted else "forgotten").encode() + b"\n" in it.data for it in these)
        good = flushed == written == wanted
        found.append(None if good else f"marks: before the mark {last} the file is {'there' if written else 'missing'}")
    return found


def durable(entries):
    """Those of these entries of which nothing can be lost after them all: FUA ones, and those before the last flush."""
    last = max((number for number, it in enumerate(entries) if it.flags & FLUSH), default=0)
    return [it for number, it in enumerate(entries) if number < last or it.flags & FUA]


def read(image, folder):
    """What /file holds on an image, once the journal is replayed."""
    path = Path(folder, "image")
    path.write_bytes(image)
    subprocess.run(["e2fsck", "-fy", path], capture_output=True)
    return subprocess.run(["debugfs", "-R", "cat /file", path], capture_output=True).stdout


def versions(guests, name, base):
    """Whether each version of the file is there after its mark, though all that is in flight is lost."""
    entries, before, fault = guests.recorded(name, FOLDER / f"{name}.sh", base)
    if fault:
        return [fault]
    found = []
    for number in (1, 2, 3):
        mark = entries.index(M(f"version-{number}"))
        wanted = (b"version %d\n" % number * 1000)[: 1000 * number]
        content = read(image_of(durable(entries[:mark]), before), guests.folder)
        found.append(None if content == wanted else f"{name}: version {number} isn't there after its mark")
    return found


def refused(guests, name, text, environment, status, says):
    """What is wrong with a guest that doesn't end well."""
    script, out = guests.folder / "script", guests.folder / name.replace(" ", "_")
    script.write_text(text + "\n")
    done = guests.run(out, script, **{"BASE": str(guests.base), **environment})
    left = guests.left(out) if status == 2 else []
    good = done.returncode == status and says in done.stderr and not left
    return None if good else f"{name}: status {done.returncode}, {done.stderr} left {left}"


def interrupted(guests, number):
    """What is wrong with a guest that is interrupted while its machine runs."""
    script, out = guests.folder / "script", guests.folder / f"signal_{number}"
    script.write_text("sleep 1000\n")
    running = subprocess.Popen(guests.command(out, script), stderr=subprocess.PIPE, text=True, preexec_fn=heeding)
    while running.poll() is None and not (out / "console").exists():
        time.sleep(0.1)
    running.send_signal(number)
    said = running.communicate(timeout=60)[1]
    left = guests.left(out)
    return None if running.returncode == 2 and not left else f"signal {number}: status {running.returncode}, {said} left {left}"


# What is run by crashbpf-record --guest. Of `stat` there is one of busybox too, and what is written outside of $FILES is gone.
IN_GUEST = """\
cd "$FILES" && cat kept && stat --version | head -n 1 && echo gone >$OUTSIDE/gone || exit 1
printf one >new && sync new && mv new one && sync . && mark one || exit 1
mark 'two words' || printf two >two
exit 3
"""


def program(guests, kind):
    """What is wrong with a program that is recorded by crashbpf-record --guest on a kind of file system, and with the files of its images."""
    out, base, image = guests.folder / f"program_{kind}", guests.folder / "base", guests.folder / "files.img"
    base.mkdir(exist_ok=True)
    (base / "kept").write_text("kept\n")
    words = [RECORD, "--guest", guests.kernel, "--fs", kind, "--base", base, out, "--", "sh", "-c", IN_GUEST]
    done = subprocess.run(words, capture_output=True, text=True, env=os.environ | {"OUTSIDE": str(guests.folder)})
    said = done.stdout.split("\n")
    if done.returncode != 3 or said[0] != "kept" or "coreutils" not in said[1] or "mark: in a guest a mark is one word" not in said:
        return [f"{kind}: status {done.returncode}, {done.stdout}{done.stderr}"]
    found = [f"{it} is left" for it in ("gone", f"{out.name}/guest") if (guests.folder / it).exists()]
    entries, before = entries_of((out / "writes.log").read_bytes()), (out / "base.img").read_bytes()
    show = "for it in kept one two; do cat $it 2>/dev/null || printf ' no %s' $it; done"
    for these, wanted in (([], " no one no two"), (durable(entries[: entries.index(M("one"))]), "one no two"), (entries, "onetwo")):
        image.write_bytes(image_of(these, before))
        ran = subprocess.run([RECORD.with_name("crashbpf-files"), out / "files.txt", image, "--", "sh", "-c", show], capture_output=True, text=True)
        found += [] if (ran.returncode, ran.stdout) == (0, f"kept\n{wanted}") else [f"{kind}: the files of an image are {ran.stdout!r}, {ran.stderr}"]
    return found


def guests_of(folder, kernel):
    """What is wrong with virtual machines of this kernel."""
    guests = Guests(folder, kernel)
    return [
        *marks(guests),
        *(it for kind in systems.SYSTEMS for it in program(guests, kind)),
        *versions(guests, "use", True),
        *versions(guests, "files", False),
        *(refused(guests, *it) for it in REFUSED),
        *(interrupted(guests, it) for it in (signal.SIGHUP, signal.SIGTERM)),
    ]


def main():
    with tempfile.TemporaryDirectory() as folder:
        found = [*(traced(folder, it) for it in range(1, 6)), *(named(folder, it, table) for it in range(1, 4) for table in ("ordered", "writeback", "strict")), *refused_calls(folder), *traced_ends(folder)]
        found += [*(recorded(folder, *it) for it in RECORDED), *based(folder), in_flight(), hung_up(folder), *(cut(folder, *it) for it in DEVICES)]
        if sys.argv[1:]:
            found += guests_of(Path(folder).resolve(), sys.argv[1])
    wrong = [it for it in found if it]
    for line in wrong:
        print("FAILED", line)
    print(f"{len(found) - len(wrong)} passed, {len(wrong)} failed")
    return 1 if wrong else 0


if __name__ == "__main__":
    sys.exit(main())
