"""Records in a virtual machine what a program does to a file system.

The machine is that of examples/recording/guest: a kernel of Linux, and dm-log-writes on its disk. On the disk stands a file system
with the folder $FILES. The program is run below a copy of this machine's files: the machine has them for reading, and what is
written to them stands in its memory alone. So the program finds its libraries and what else it wants where it always does.
"""
import os
import re
import shlex
import shutil
import struct
import subprocess
import tempfile
from dataclasses import dataclass
from pathlib import Path

from commands.record import mounting
from commands.record import traced
from commands.record.calls import Refused
from commands.record.device import last_image
from commands.record.disk import MARK, SECTOR
from commands.record.layout import is_large, trace_log
from commands.record.systems import ACCELERATORS, KINDS, PATH, by_machine, done, map_text, tool
from commands.shared.recording import NAME, Recording

GUEST = Path(__file__).resolve().parents[2] / "examples/recording/guest"
LOG, BASE, DISK, CONSOLE, MAP = "writes.log", "base.img", "disk.img", "console", "files.txt"
MADE = (LOG, BASE, DISK, MAP, NAME, mounting.MACHINE)
# What stands in the folder of a recording that was refused.
LEFT = (*MADE, CONSOLE)
# Where the disk is mounted, and the folder on it, $FILES.
TOP, FILES = "/crashbpf", "files"
DISCARD = 4
# The modules of ext4, which each machine of `guest` has.
THERE = ("crc32c_generic", "libcrc32c")
BEGUN, ENDED = "the program begins", "the program has ended"

SCRIPT = """\
root=/over/root
mkdir -p /share /over && mount -t tmpfs over /over && mkdir /over/upper /over/work $root || exit 125
mount -t 9p -o trans=virtio,version=9p2000.L,ro,cache=loose,msize=262144 share /share || exit 125
mount -t overlay -o lowerdir=/share,upperdir=/over/upper,workdir=/over/work over $root || exit 125
mkdir -p $root{top} $root/run/crashbpf/bin $root/dev $root/proc $root/sys || exit 125
mount -t devtmpfs dev $root/dev && mount -t proc proc $root/proc && mount -t sysfs sys $root/sys || exit 125
cat >$root/run/crashbpf/bin/mark <<'MARK'
#!/bin/sh
case $#$1 in
1 | *[[:space:]]* | [!1]*) echo 'mark: in a guest a mark is one word' >&2; exit 2 ;;
esac
exec dmsetup message watched 0 mark "$1"
MARK
cat >$root/run/crashbpf/run <<'RUN'
#!/bin/sh
cd "$1" || exit 125
shift
exec "$@"
RUN
chmod +x $root/run/crashbpf/bin/mark $root/run/crashbpf/run
mount -t {kind} -o {options} $DEVICE $root{top} || exit 125
echo '{begun}'
chroot $root /usr/bin/env -i {environment} /run/crashbpf/run {at} {words} </dev/null
status=$?
echo
echo '{ended}'
umount $root{top} || exit 125
exit $status
"""


@dataclass(frozen=True)
class Guest:
    """What a machine is made of: the folder of its kernel, the kind of its file system, and how many sectors its disk has."""

    kernel: str
    kind: str
    sectors: int
    accelerator: str = ACCELERATORS[0]


def wanted(kernel, kind, sectors):
    """The machine that is asked for, or why there is none."""
    if not list(Path(kernel).glob("boot/vmlinuz-*")) or not Path(kernel, "lib/modules").is_dir():
        raise Refused(f"{kernel} has no boot/vmlinuz-* and lib/modules: `dpkg -x linux-image-*.deb KERNEL` makes such a folder of Debian's package")
    sectors, accelerator = KINDS[kind].sectors if sectors is None else sectors, os.environ.get("ACCEL") or ACCELERATORS[0]
    if not 1 <= sectors <= trace_log.LARGE.sectors or sectors % 8:
        raise Refused(f"the disk has 8 to {trace_log.LARGE.sectors} sectors, a multiple of 8: say how many by --sectors")
    if accelerator not in ACCELERATORS:
        raise Refused(f"ACCEL is {' or '.join(ACCELERATORS)}, and not {accelerator}")
    refuse_no_kvm(kernel, accelerator)
    return Guest(os.path.realpath(kernel), kind, sectors, accelerator)


def refuse_no_kvm(kernel, accelerator):
    """Refuses a machine by KVM where that doesn't run, before anything is made."""
    if accelerator == "kvm":
        done = subprocess.run([str(GUEST), kernel], env={**os.environ, "PATH": PATH}, stdin=subprocess.DEVNULL, capture_output=True, text=True, errors="replace")
        if done.returncode:
            raise Refused(why_not(done.stderr))


def why_not(said):
    """Why a machine wasn't run, by what `guest` said on standard error."""
    # (QEMU may say something after it, as that it was ended)
    lines = said.strip().splitlines()
    why = [it for it in lines if it.startswith("guest: ")] or lines or ["nothing was recorded"]
    return why[-1].removeprefix("guest: ")


def lay_disk(folder, base, guest):
    """Makes the disk with the folder $FILES, in which is what --base has."""
    system, path = KINDS[guest.kind], os.path.join(folder, BASE)
    tool(system.make.split()[0], system.package)
    with tempfile.TemporaryDirectory(prefix="crashbpf-record.") as room:
        os.mkdir(os.path.join(room, FILES))
        traced.lay_base(base, os.path.join(room, FILES))
        with open(path, "xb") as file:
            file.truncate(SECTOR * guest.sectors)
        why = f"no file system of {guest.sectors} sectors holds the base; --sectors"
        if not by_machine(guest.kind):
            done([*system.make.split(), "-d", room, path], why)
            return
        done([*system.make.split(), path], why)
        state = os.path.join(folder, mounting.MACHINE)
        mounting.begin(guest, path, state)
        mounting.put(state, guest.accelerator, path, room)


def script_of(kind, at, words):
    """The script that runs the program in the machine."""
    given = {**os.environ, "FILES": f"{TOP}/{FILES}", "PATH": f"/run/crashbpf/bin{os.pathsep}{PATH}"}
    known = [f"{name}={value}" for name, value in given.items() if re.fullmatch(r"[A-Za-z_]\w*", name) and "\n" not in value]
    return SCRIPT.format(
        top=TOP,
        kind=kind,
        options=KINDS[kind].options,
        begun=BEGUN,
        ended=ENDED,
        environment=shlex.join(known),
        at=shlex.quote(at),
        words=shlex.join(words),
    )


def said_by(console):
    """What the program said, by the console of its machine; nothing where it didn't run to its end."""
    text = console.replace(b"\r\n", b"\n")
    found = re.search(rb"(?ms)^%s\n(.*)\n%s$" % (BEGUN.encode(), ENDED.encode()), text)
    return found and found[1]


def surroundings_of(folder, guest):
    """The environment of the script that makes the machine."""
    modules = mounting.loadable(guest.kernel, [it for it in KINDS[guest.kind].modules.split() if it not in THERE])
    return {**os.environ, "PATH": PATH, "BASE": os.path.join(folder, BASE), "SHARE": "/", "MODULES": " ".join(modules)}


def run(folder, guest, words):
    """Runs the program in the machine. Returns its status, and what it said."""
    room, at = os.path.join(folder, "guest"), os.getcwd()
    tool("qemu-system-x86_64", "qemu-system-x86")
    with tempfile.NamedTemporaryFile("w", errors="surrogateescape") as script:
        script.write(script_of(guest.kind, at, words))
        script.flush()
        called = [str(GUEST), guest.kernel, str(guest.sectors), room, script.name]
        running = subprocess.Popen(called, env=surroundings_of(folder, guest), stdin=subprocess.DEVNULL, stderr=subprocess.PIPE)
        try:
            said = running.communicate()[1].decode(errors="replace").strip()
        except BaseException:
            running.terminate()
            running.wait()
            raise
        finally:
            for name in (LOG, DISK, CONSOLE):
                if os.path.exists(os.path.join(room, name)):
                    os.replace(os.path.join(room, name), os.path.join(folder, name))
            shutil.rmtree(room, ignore_errors=True)
    if running.returncode not in (0, 1):
        raise Refused(why_not(said).replace(room, folder))
    console = Path(folder, CONSOLE).read_bytes()
    printed, status = said_by(console), re.search(rb"script ended with status (\d+)", console)
    if printed is None or status is None or status[1] == b"125" and not printed:
        raise Refused(f"the machine didn't run the program to its end; see {os.path.join(folder, CONSOLE)}")
    return int(status[1]), printed


def without_end(log):
    """A log without its last entry, the mark of dm-log-writes, with how many marks it has then, and how many sectors written."""
    (entries,), at, units, marks = struct.unpack_from("<Q", log, 16), SECTOR, 0, 0
    for _ in range(entries - 1):
        _, count, flags = struct.unpack_from("<3Q", log, at)
        marks += bool(flags & MARK)
        units += 0 if flags & MARK else count
        at += SECTOR * (1 if flags & (DISCARD | MARK) else 1 + count)
    return log[:16] + struct.pack("<Q", entries - 1) + log[24:at], marks, units


def record(folder, kernel, kind, base, sectors, words):
    """Records a program. Returns its status, and what is said of the log."""
    guest = wanted(kernel, kind, sectors)
    lay_disk(folder, base, guest)
    begun = os.stat(os.path.join(folder, BASE)).st_ctime_ns
    status, printed = run(folder, guest, words)
    log, marks, units = without_end(Path(folder, LOG).read_bytes())
    if last_image(log, Path(folder, BASE).read_bytes()) != Path(folder, DISK).read_bytes():
        raise Refused("the last image of the log isn't the disk of the machine")
    Path(folder, LOG).write_bytes(log)
    (entries,) = struct.unpack_from("<Q", log, 16)
    large = is_large(guest.sectors, entries, units, len(log))
    Path(folder, MAP).write_text(map_text(kind, guest.sectors, FILES, guest.accelerator))
    Recording(folder, guest.sectors, large, BASE, MAP, files=f"{TOP}/{FILES}", at=os.getcwd(), begun=begun, program=list(words)).write()
    said = printed.decode(errors="replace")
    told = f"entries {entries} marks {marks} sectors {guest.sectors}{', by the limits of --large' if large else ''}: "
    told += f"crashbpf-each {shlex.quote(os.path.relpath(folder))} -- COMMAND"
    return status, f"{said}{told}" if not said or said.endswith("\n") else f"{said}\n{told}"
