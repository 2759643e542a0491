"""The root of the machine as an initrd: busybox, modules of the kernel, commands with their libraries, and the script."""
import lzma
import os
import re
import shutil
import subprocess
from pathlib import Path

HERE = Path(__file__).resolve().parent
FOLDERS = ("bin", "dev", "proc", "sys", "mnt", "tmp", "etc", "modules")
VIRTIO = "virtio_ring virtio virtio_pci_modern_dev virtio_pci_legacy_dev virtio_pci virtio_blk"
EXT4 = "crc16 crc32c_generic libcrc32c mbcache jbd2 ext4"


class NoRoot(Exception):
    """Something that the machine wants isn't there."""


def command(name):
    """Returns the path of a command, which has to be there."""
    found = shutil.which(name, path=f"{os.environ['PATH']}:/usr/sbin:/sbin")
    if not found:
        raise NoRoot(f"there is no command {name}")
    return Path(found)


def put_command(root, name):
    """Puts a command into the root, with the libraries that it is loaded with."""
    path = command(name)
    shutil.copy(path, root / "bin" / name)
    listed = subprocess.run(["ldd", path], capture_output=True, text=True).stdout
    for library in re.findall(r"(/\S+) \(0x", listed):
        (root / library[1:]).parent.mkdir(parents=True, exist_ok=True)
        shutil.copy(library, root / library[1:])


def put_module(root, kernel, name):
    """Puts a module of the kernel into the root, unpacked."""
    found = next(iter(sorted((kernel / "lib/modules").rglob(f"{name}.ko*"))), None)
    if not found:
        raise NoRoot(f"the kernel has no module {name}")
    data = found.read_bytes()
    (root / "modules" / f"{name}.ko").write_bytes(lzma.decompress(data) if found.suffix == ".xz" else data)


def make_initrd(kernel, folder, script, modules, commands):
    """Makes folder/initrd, and returns the path of the kernel's image."""
    image = next(iter(sorted((kernel / "boot").glob("vmlinuz-*"))), None)
    if not image:
        raise NoRoot(f"{kernel} has no boot/vmlinuz-*")
    command("qemu-system-x86_64")
    root = folder / "root"
    for it in FOLDERS:
        (root / it).mkdir(parents=True)
    shutil.copy(command("busybox"), root / "bin/busybox")
    shutil.copy(HERE / "guest_init", root / "init")
    (root / "init").chmod(0o755)
    shutil.copy(script, root / "script")
    for it in commands.split():
        put_command(root, it)
    order = f"{VIRTIO} {EXT4} {modules}".split()
    for it in order:
        put_module(root, kernel, it)
    (root / "modules/order").write_text(" ".join(order) + "\n")
    packed = f"{command('cpio')} --quiet -o -H newc | gzip -1 > ../initrd"
    done = subprocess.run(["sh", "-c", f"find . | {packed}"], cwd=root, capture_output=True, text=True)
    if done.returncode:
        raise NoRoot(f"the initrd can't be made: {done.stderr.strip()}")
    shutil.rmtree(root)
    return image.resolve()
