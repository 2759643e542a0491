"""The files of a file system that stands on an image.

The journal is replayed, as where a machine comes up, and the files are taken out: of ext4 by its tools, of others by a machine that
mounts the image (mounting.py). A map says which file system it is, in which of its folders the files lie, and of which kind the machine
is. `guest.py` records such images. (crashbpf-files has this for each image, so it names few modules.)
"""
import os
import re
import shutil
import subprocess
import tempfile
from dataclasses import dataclass

from commands.record.calls import Refused

HEAD = "crashbpf files of a file system 1"


@dataclass(frozen=True)
class System:
    """A kind of file system: how large its disk is where nothing is said, the words that make it, the package of their tool, the kernel's
    modules in their order, and the options of a mount."""

    sectors: int
    make: str
    package: str
    modules: str = ""
    options: str = "defaults"


# (ext4 is the usual one, and its modules are in each machine. The others are as small as their tools make them. f2fs discards all that is
# free without `nodiscard`, and a log counts that as written.)
KINDS = {
    "ext4": System(32_768, "mke2fs -q -F -t ext4 -b 4096 -E nodiscard,lazy_itable_init=0,lazy_journal_init=0,root_owner=0:0", "e2fsprogs"),
    "xfs": System(614_400, "mkfs.xfs -q -f -K", "xfsprogs", "crc32c_generic libcrc32c xfs"),
    "btrfs": System(
        233_472, "mkfs.btrfs -q -f -K", "btrfs-progs", "crc32c_generic libcrc32c xxhash_generic blake2b_generic zstd_compress raid6_pq xor btrfs"
    ),
    "f2fs": System(131_072, "mkfs.f2fs -q -f -t 0", "f2fs-tools", "crc32_generic zstd_compress lz4_compress lz4hc_compress f2fs", "nodiscard"),
}
SYSTEMS = tuple(KINDS)
ACCELERATORS = ("tcg", "kvm")
# Tools of file systems stand where no user's path leads.
PATH = os.pathsep.join([os.environ.get("PATH", os.defpath), "/usr/sbin", "/sbin"])


def tool(name, package):
    """The path of a tool, or why there is no recording."""
    found = shutil.which(name, path=PATH)
    if found is None:
        raise Refused(f"there is no {name} (Debian: {package})")
    return found


def done(words, what, good=(0,)):
    """Runs a tool. Returns what it says on standard error."""
    ran = subprocess.run(words, stdin=subprocess.DEVNULL, capture_output=True, env={**os.environ, "PATH": PATH, "LC_ALL": "C"})
    if ran.returncode not in good:
        said = [it for it in (ran.stderr + ran.stdout).decode(errors="replace").splitlines() if it.strip()]
        raise Refused(f"{what}: {os.path.basename(words[0])} ends with status {ran.returncode}{': ' + said[-1].strip() if said else ''}")
    return ran.stderr.decode(errors="replace")


def by_machine(kind):
    """Whether the files of such a file system are taken out by a machine."""
    return kind != "ext4"


def map_text(kind, sectors, folder, accelerator):
    machine = [f"machine {accelerator}"] if by_machine(kind) else []
    return "\n".join([HEAD, f"system {kind}", f"sectors {sectors}", f"folder {folder}", *machine, "end", ""])


def is_map(text):
    """Whether a text is the map of a file system."""
    return text.startswith(f"{HEAD}\n")


def read_map(text):
    """The kind of file system, how many sectors the disk has, the folder of the files, and by what a machine runs that mounts it, where
    one does. What is no map is refused with its line."""
    machine = rf"(?:machine ({'|'.join(ACCELERATORS)})\n)?"
    found = re.fullmatch(rf"{HEAD}\nsystem ({'|'.join(SYSTEMS)})\nsectors (\d{{1,8}})\nfolder (\w+)\n{machine}end\n", text)
    if not found or by_machine(found[1]) != bool(found[4]):
        raise Refused("1: it is no map of a file system")
    return found[1], int(found[2]), found[3], found[4]


def lay_out(image, inside, folder, is_own):
    """Lays out in a folder what an image of ext4 has in one of its folders, once its journal is replayed: that of a copy, but where the
    image is this program's own. Such a one is served, and of it no more is looked at than is needed."""
    check, debug = tool("e2fsck", "e2fsprogs"), tool("debugfs", "e2fsprogs")
    with tempfile.TemporaryDirectory(prefix="crashbpf-files.") as room:
        copy, out = image if is_own else os.path.join(room, "image"), os.path.join(room, "out")
        is_own or shutil.copyfile(image, copy)
        os.mkdir(out)
        # (as when a machine comes up: it replays the journal, and mends what is safe to be mended)
        done([check, "-p", copy], image, (0, 1))
        said = done([debug, "-R", f'rdump "/{inside}" "{out}"', copy], image).splitlines()[1:]
        # (who isn't root can't give files to others)
        said = [it for it in said if not re.match(r"(rdump|dump_file): Operation not permitted while changing ownership of ", it)]
        if said:
            raise Refused(f"{image}: debugfs: {said[0]}")
        for name in os.listdir(os.path.join(out, inside)):
            shutil.move(os.path.join(out, inside, name), os.path.join(folder, name))
        shutil.copystat(os.path.join(out, inside), folder)
