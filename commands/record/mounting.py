"""A virtual machine that mounts an image, so that the kernel replays its journal, and takes the files out of it or puts some in.

It is begun once for a recording, and its state is kept in the file MACHINE at the place where it has the modules of the file system,
and has looked at no disk. Each use goes on from there with an image as its disk, and ends with it. So a use takes a second or so, each
image is mounted by the very same machine, at the same time of day, and none stays that would have to be ended. The files go
through a second disk, as an archive of tar.
"""
import lzma
import os
import re
import select
import shlex
import shutil
import subprocess
import tarfile
import tempfile
import time
from contextlib import suppress
from pathlib import Path

from commands.record.calls import Refused
from commands.record.systems import KINDS, tool

# The state of the machine, beside the map of a recording.
MACHINE = "machine"
VIRTIO = "virtio_ring virtio virtio_pci_modern_dev virtio_pci_legacy_dev virtio_pci"
DISK_MODULE = "virtio_blk"
# How many bytes an archive has at most: a file without content.
ARCHIVE = 1 << 33
# How long a machine may take to come up, and for one image, in seconds; how often it is asked.
UP, MOUNTED, AGAIN = 300, 300, 0.1
QEMU = "-cpu qemu64 -smp 1 -m 256 -nodefaults -display none -no-reboot"
# (what is freed is zeroed, since the state has all that isn't zeros)
KERNEL = "console=ttyS1 quiet panic=-1 no_timer_check init_on_free=1"
TAKE, PUT = "take", "put"
READY, BEGUN, DONE = b"ready", b"begun", b"done"

INIT = """\
#!/bin/busybox sh
/bin/busybox --install -s /bin
mount -t proc proc /proc
mount -t sysfs sys /sys
mount -t devtmpfs dev /dev
stty -F /dev/ttyS0 raw -echo
exec 3<>/dev/ttyS0
echo up >&3
for it in $(cat /modules/order); do
	insmod /modules/$it.ko 2>/said || echo "the module $it isn't loaded: $(cat /said)" >&3
done
stop() {
	echo "$(grep -v ': socket ignored$' /said | tail -n 1) $(dmesg | grep -v 'clocksource' | tail -n 1)" >&3
	poweroff -f
}
# (what is asked for comes again and again, and the first line may lack its begin)
echo ready >&3
while read -r begin order folder end <&3; do
	[ "$begin $end" != "go now" ] || break
done
echo begun >&3
insmod /modules/virtio_blk.ko
mount -t KIND -o OPTIONS /dev/vda /mnt 2>/said || stop
case $order in
take) cd /mnt/$folder 2>/said && tar -c . 2>/said >/dev/vdb || stop ;;
put) tar -x -p -C /mnt 2>/said </dev/vdb && umount /mnt || stop ;;
esac
sync
echo done >&3
poweroff -f
"""


def module(kernel, name):
    """The bytes of a module of the kernel, unpacked, or nothing where the kernel has it built in."""
    folder = Path(kernel, "lib/modules")
    found = next(iter(sorted(folder.rglob(f"{name}.ko*"))), None)
    if found:
        return lzma.decompress(found.read_bytes()) if found.suffix == ".xz" else found.read_bytes()
    if not any(re.search(rf"(?m)/{re.escape(name)}\.ko$", it.read_text()) for it in folder.glob("*/modules.builtin")):
        raise Refused(f"{kernel} has no module {name}, and not built in either")
    return None


def loadable(kernel, names):
    """Those of some modules that a kernel has as files, with their bytes. The others are built in."""
    found = {it: module(kernel, it) for it in names}
    return {name: content for name, content in found.items() if content is not None}


def make_root(guest, room):
    """Makes what the machine begins with: busybox, modules, and what it does."""
    root = Path(room, "root")
    for it in ("bin", "dev", "proc", "sys", "mnt", "modules"):
        (root / it).mkdir(parents=True)
    shutil.copy(tool("busybox", "busybox-static"), root / "bin/busybox")
    modules = loadable(guest.kernel, [*VIRTIO.split(), *KINDS[guest.kind].modules.split()])
    for name, content in {**modules, **loadable(guest.kernel, [DISK_MODULE])}.items():
        (root / f"modules/{name}.ko").write_bytes(content)
    (root / "modules/order").write_text(" ".join(modules) + "\n")
    (root / "init").write_text(INIT.replace("KIND", guest.kind).replace("OPTIONS", KINDS[guest.kind].options))
    (root / "init").chmod(0o755)
    packed = subprocess.run(f"find . | {tool('cpio', 'cpio')} --quiet -o -H newc | gzip -1 >../initrd", shell=True, cwd=root, capture_output=True)
    if packed.returncode:
        raise Refused(f"what the machine begins with can't be packed: {packed.stderr.decode(errors='replace').strip()}")
    shutil.rmtree(root)


def disk(path, more=""):
    """The words of QEMU for a disk."""
    return ["-drive", f"file={os.path.abspath(path).replace(',', ',,')},format=raw,if=virtio,cache=unsafe{more}"]


def called(accelerator, words, folder):
    """Starts QEMU with some words more, in a folder."""
    program = tool("qemu-system-x86_64", "qemu-system-x86")
    pipes = {"stdin": subprocess.PIPE, "stdout": subprocess.PIPE, "stderr": subprocess.PIPE}
    return subprocess.Popen([program, "-accel", accelerator, *QEMU.split(), *words], cwd=folder, bufsize=0, **pipes)


def ended(running):
    """Ends QEMU, where it is there still. Returns what it said on standard error."""
    running.kill()
    return running.communicate()[1].decode(errors="replace").strip()


def asked(running, text):
    """Says something to QEMU, where it is there still."""
    with suppress(OSError):
        running.stdin.write(text)


def sparse(path):
    """Makes a file of the size of an archive, without content."""
    with open(path, "xb") as file:
        file.truncate(ARCHIVE)
    return path


def lines(said):
    return [it.strip() for it in said.split(b"\n")]


def wait_until_up(running, line):
    """Waits until a machine has come up, by the file with what it says."""
    begun, said = time.monotonic(), b""
    while READY not in lines(said):
        took = time.monotonic() - begun
        if running.poll() is not None or took > UP:
            raise Refused(f"the machine that mounts doesn't come up: {running.poll() is None and f'not within {UP} seconds' or ended(running)}")
        time.sleep(AGAIN / 2)
        said = line.read_bytes() if line.exists() else b""
    if len(lines(said)) > 3:
        raise Refused(f"the machine that mounts: {lines(said)[1].decode(errors='replace')}")


def begin(guest, image, state):
    """Begins the machine of a guest, and keeps its state in a file. The image only says how large the disk is."""
    with tempfile.TemporaryDirectory(prefix="crashbpf-machine.") as room:
        make_root(guest, room)
        words = ["-kernel", str(sorted(Path(guest.kernel).glob("boot/vmlinuz-*"))[0].resolve()), "-initrd", "initrd", "-append", KERNEL]
        words += ["-serial", "file:line", "-monitor", "stdio", *disk(image, ",snapshot=on"), *disk(sparse(os.path.join(room, "archive")))]
        running = called(guest.accelerator, words, room)
        try:
            wait_until_up(running, Path(room, "line"))
            asked(running, f'migrate "exec:cat >{MACHINE}"\nquit\n'.encode())
            said = running.communicate(timeout=UP)[1]
        finally:
            ended(running) if running.returncode is None else None
        if running.returncode or not Path(room, MACHINE).exists():
            raise Refused(f"the state of the machine that mounts can't be kept: {said.decode(errors='replace').strip()}")
        shutil.move(os.path.join(room, MACHINE), state)


def heard(running, order):
    """What a machine says that goes on from its state, once it is asked for something."""
    said, is_begun, until = b"", False, time.monotonic() + MOUNTED
    while time.monotonic() < until:
        if not is_begun:
            asked(running, order)
        if select.select([running.stdout], [], [], AGAIN)[0]:
            more = os.read(running.stdout.fileno(), 65536)
            if not more:
                return said
            said, is_begun = said + more, True
    raise Refused(f"it isn't mounted within {MOUNTED} seconds")


def used(state, accelerator, image, archive, order, folder, more=""):
    """Has the machine take the files of an image into an archive, or put those of an archive into it. `more` is said of the disk."""
    if not os.path.exists(state):
        raise Refused(f"{state} isn't there, the machine that mounts the images of the recording")
    where, name = os.path.split(os.path.abspath(state))
    words = ["-serial", "stdio", "-incoming", f"exec:cat {shlex.quote(name)}", *disk(image, more), *disk(archive)]
    running = called(accelerator, words, where)
    try:
        said = lines(heard(running, f"go {order} {folder} now\n".encode()))
    finally:
        fault = ended(running)
    if DONE not in said:
        why = [it.decode(errors="replace") for it in said if it not in (b"", BEGUN)] or fault.splitlines() or ["the machine ends before its time"]
        raise Refused(f"{image}: {why[-1].strip()}")


def without_names(member):
    """A file of an archive without the names of its owners, which the machine doesn't know."""
    member.uname = member.gname = ""
    return member


def put(state, accelerator, image, source):
    """Puts what a folder has into a file system."""
    with tempfile.TemporaryDirectory(prefix="crashbpf-machine.") as room:
        archive = os.path.join(room, "archive")
        # (the machine's tar reads all of its disk, so this is no longer than what there is)
        with tarfile.open(archive, "x", format=tarfile.GNU_FORMAT) as file:
            for name in sorted(os.listdir(source)):
                file.add(os.path.join(source, name), name, filter=without_names)
        used(state, accelerator, image, archive, PUT, ".")


def take(state, accelerator, image, inside, folder):
    """Lays out in a folder what an image has in one of its folders, once it is mounted. The image stays as it is."""
    with tempfile.TemporaryDirectory(prefix="crashbpf-files.") as room:
        archive = sparse(os.path.join(room, "archive"))
        used(state, accelerator, image, archive, TAKE, inside, ",snapshot=on")
        with tarfile.open(archive) as file:
            # (the files are the program's own, whatever names they have)
            file.extraction_filter = lambda member, _path: member
            file.extractall(folder, numeric_owner=True)
