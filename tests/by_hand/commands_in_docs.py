#!/usr/bin/env python3
"""Runs the commands of the documents as they stand, and compares what they print with what is shown there. By hand.

    python3 tests/by_hand/commands_in_docs.py [--kernel KERNEL] [--kit] [PROGRAM [DOCUMENT ..]]

PROGRAM is as in run.py. The documents are those at the top, in docs/ and in examples/, or the ones that are named.

With --kernel the blocks that want QEMU are run too. KERNEL is a folder as `guest` takes it, and each copy of the repository has it
as `kernel`. A line that downloads a package of a kernel is run; where it fails, a line says that it was passed over, and KERNEL stays.
Blocks with $DATA, $LOG or dmsetup are run in a virtual machine, those of a document in one. There the two are disks, crashbpf is on the
path, and examples/recording/ext4.bpf is there. The block with $GUEST has a guest that writes to its disk and ends.

With --kit the blocks that want the kit are run too, where `rt` is there, in a copy of all that git tracks. That proves everything:
README.md's take two hours on four slow cores. .ci/run runs the last of these, `rt ci`, and so the main job, which `rt run` runs.

A block of commands is indented by four spaces, or fenced as `sh` or `python`. Each document has a copy of the repository, in which
its blocks are run one after the other by one shell, with the program and the scripts of a package on the path. One that is indented
sets variables for those after it. What stands below a block in a fence without a language, before the next heading, is a part of what
it prints; `...` there stands for any lines, and `..` at the end of a line for the rest of it. So is the first column of a table whose head begins with `It prints` or `They print`: each
line of it is printed, in any order, and `..` at its end stands for the rest. README.md's script and its checker in C are those that
its blocks run.

For each block a line says the document, its line, with which status it ended and after how many seconds, or why it wasn't run: NOT_RUN
has the reasons. It failed where a command of it did, or where a line that is shown wasn't printed. A status of 1 of crashbpf,
crashbpf-each, crashbpf-test, crashbpf-cc --against or a native checker is no failure: it is their verdict on images. The last line is `N passed, M failed`.
"""
import argparse
import base64
import os
import re
import shlex
import shutil
import subprocess
import sys
import tempfile
from dataclasses import dataclass, field
from pathlib import Path

sys.dont_write_bytecode = True

import rooms

rooms.enter()

from notation import TOP

# The kinds of blocks that are run, and what stands around each: an indented one (no kind), and two that are fenced.
RUN = {None: ("{", "}"), "sh": ("(", ")"), "python": ("{ python3 - <<'PYTHON'", "PYTHON\n}")}
# Where programs of the system are looked for, and the Python of Debian's packages.
PATH = f"{os.environ['PATH']}:/usr/sbin:/sbin"
PYTHON = "/usr/bin/python3"
# What machines want, those in which there is a device to log, and QEMU's disk that is a file.
KERNEL = ["--kernel", "qemu-system-x86_64", "busybox", "cpio", "mkfs.ext4", "dmsetup"]
FUSE = ["qemu-storage-daemon", "/dev/fuse", *(["fusermount3"] if os.getuid() else [])]
# What a copy of the repository has, and which of its folders are on the path, as a package has what is in them.
COPIED = ("commands", "include", "examples", "tools")
ON_PATH = ("crates/crashbpf/out", "commands/cc", "commands/each", "commands/record", "commands/test")
# Why blocks with these words aren't run, and the programs with which they are all the same: none, where nothing here suffices. Of several
# rows that fit a block the first one counts.
NOT_RUN = {
    r"\brt (ci|run|try)\b|\.ci/run": ("it needs the kit, and --kit", ["--kit", "rt"]),
    r"\$DATA|dmsetup|\$GUEST": ("it needs QEMU, and --kernel", KERNEL),
    r"crashbpf-record --fuse|formatting/": ("it needs qemu-storage-daemon, and /dev/fuse", FUSE),
    r"mkfs\.xfs": ("it needs QEMU, --kernel, and mkfs.xfs", [*KERNEL, "mkfs.xfs"]),
    r"recovery/sqlite|COMMANDS=sqlite3": ("it needs QEMU, --kernel, sqlite3 and e2fsck", [*KERNEL, "sqlite3", "e2fsck"]),
    r"examples/recording/guest\b|\bused/|\bkernel\b|in-guest|mounted": ("it needs QEMU, and --kernel", KERNEL),
    r"sbatch|parallel|try_slurm|join_all run >": ("it needs Slurm or several machines; tests/gate/many_machines.py runs parts as processes", []),
    r"tests/real_programs\.py": ("it is a test itself, which records databases", []),
    r"lay_out_each": ("it needs /dev/fuse", FUSE[1:]),
    r"(--cure|--again) .*-- (e2fsck|examples/recovery/ext4)": ("it needs /dev/fuse and e2fsck", [*FUSE[1:], "e2fsck"]),
    r"recovery/replay": ("it needs strace and /dev/fuse", ["strace", *FUSE[1:]]),
    r"recovery/ext4": ("it needs e2fsck", ["e2fsck"]),
    r"recovery/lmdb": ("it needs strace and Debian's python3-lmdb", ["strace", "import lmdb"]),
    r"saving/|loose": ("it needs strace", ["strace"]),
    r"crashbpf-record|recorded/|named/": ("it needs strace and sqlite3", ["strace", "sqlite3"]),
    r"--against": ("it needs clang, its llvm-objdump, cc and e2fsck", ["clang", "llvm-objdump", "cc", "e2fsck"]),
    r"e2fsck": ("it needs e2fsck", ["e2fsck"]),
    r"crashbpf-cc|\bcc -g": ("it needs clang and its llvm-objdump", ["clang", "llvm-objdump"]),
}
# What the reader of a document has, as commands that make it. The first C of the document is $FIRST_C, its first script $FIRST_BASH,
# its first fence without a language $FIRST_TEXT.
EXT2 = (
    "mke2fs -q -t ext2 base.img 128 2> made; for it in 0 32 64 96 128 160 192 224; do "
    'echo "write $it 32 data base.img"; [ $it != 128 ] || echo flush; done | commands/record/trace_log.py - disk.log --sectors 256'
)
HELD = {
    "README.md": "cp examples/saving/* examples/tree/* .; "
    'cp "$FIRST_BASH" save.sh; { echo \'#include "checker.h"\'; cat "$FIRST_C"; } > root.c; rm root.bpf',
    "docs/RECOVERY.md": EXT2,
    "docs/ASSEMBLY.md": "cp examples/two_slots/checker.s check.s",
    "docs/CHECKERS.md": 'cp "$FIRST_C" check.c; cp examples/pages/wrong.log writes.log',
    "docs/CI.md": "mkdir ci; cp examples/two_slots/checker.c ci/check.c; cp examples/two_slots/wrong.log writes.log; "
    "crashbpf explore writes.log examples/two_slots/checker_c.bpf --sectors 4 --bound 2 --tears > known.report; "
    r"sed -n 's/^image .* \(program .*\) choice .*/\1/p' known.report | sort -u > known.answers; "
    f"{EXT2}",
    "docs/RECORDING.md": 'cp "$FIRST_TEXT" commit.trace; cp "$FIRST_C" check.c',
    "examples/many_machines/README.md": "cp examples/pages/checker.bpf check.bpf; cp examples/pages/wrong.log disk.log; PATH=$PATH:$PWD/examples/many_machines; "
    "printf '#!/bin/sh\\n' > check; chmod +x check",
}


# What stands before and after the blocks that are run in a machine, by busybox's shell: its disks are the devices, and udev isn't there.
DISKS = """\
dmsetup remove --noudevsync watched
export DM_DISABLE_UDEV=1 DATA=/dev/vda LOG=/dev/vdb
head() { /bin/head "$@"; }
mkdir -p /tmp/examples/recording && cd /tmp && base64 -d >examples/recording/ext4.bpf <<'END'
"""
CHECKER = "examples/recording/ext4.bpf"
DEVICES = "COMMANDS='crashbpf head' CPU=max examples/recording/guest kernel 16384 devices devices.sh"
# What a machine without a log of its own does: it writes to its disk, flushes, and ends. The shell then has $GUEST.
GUEST = """\
mkdir -p guest/bin guest/dev guest/modules && cp "$(command -v busybox)" guest/bin/
order='virtio_ring virtio virtio_pci_modern_dev virtio_pci_legacy_dev virtio_pci virtio_blk'
for it in $order; do
    found=$(find kernel/lib/modules/ -name "$it.ko*" | head -n 1)
    case $found in *.xz) xz -dc "$found" ;; *) cat "$found" ;; esac >guest/modules/$it.ko
done
cat >guest/init <<'INIT'
#!/bin/busybox sh
/bin/busybox --install -s /bin
mount -t devtmpfs dev /dev
for it in ORDER; do insmod /modules/$it.ko; done
yes | dd of=/dev/vda bs=4096 count=2 iflag=fullblock conv=fsync
poweroff -f
INIT
sed -i "s/ORDER/$order/" guest/init && chmod +x guest/init
(cd guest && find . | cpio --quiet -o -H newc | gzip -1) >guest.initrd
GUEST="-m 256 -nodefaults -display none -no-reboot -kernel $(echo kernel/boot/vmlinuz-*) -initrd guest.initrd -append panic=-1"
"""
# Where a command fails: 1 is what a judge says of failing images.
JUDGES = r"(^|[ (;])crashbpf(-each|-test)? |^crashbpf-cc .* --against |^\./check "
ON_FAILURE = """\
last=$?
[[ $last = 1 && $BASH_COMMAND =~ $judges ]] || {{ worst=$last; echo "status $last of $BASH_COMMAND" >> "{said}/$at.wrong"; }}
"""
given = argparse.Namespace(kernel=None, kit=False)


def is_there(wanted):
    """Whether there is a program of this name, a file, or a module for Debian's Python, or an option was given."""
    if wanted and wanted.startswith("--"):
        return bool(getattr(given, wanted[2:]))
    if wanted and wanted.startswith("/"):
        return os.access(wanted, os.R_OK | os.W_OK)
    if wanted and wanted.startswith("import "):
        return os.access(PYTHON, os.X_OK) and subprocess.run([PYTHON, "-c", wanted], capture_output=True).returncode == 0
    return not wanted or bool(shutil.which(wanted, path=PATH))


@dataclass
class Block:
    """A block of a document: the number of its line, its kind ('' is a fence without a language, '#' a heading, '|' a table), its text."""

    line: int
    kind: str | None
    text: list = field(default_factory=list)

    def reason(self):
        """Returns why it isn't run, or none."""
        why, wanted = next((it for words, it in NOT_RUN.items() if re.search(words, "\n".join(self.text))), (None, [()]))
        return None if wanted and all(is_there(it) for it in wanted) else why

    def has(self, words):
        return any(re.search(words, it) for it in self.text)

    def in_machine(self):
        """Whether it is run in a machine whose disks are the devices."""
        return self.has(r"\$DATA|dmsetup")

    def in_shell(self, at):
        """Returns its lines as a shell runs them: one that downloads a kernel replaces the link, or leaves a word."""
        lines = []
        for line in self.text:
            if given.kernel and line.startswith("apt-get download linux-image"):
                link = f"rm -rf kernel; ln -s {shlex.quote(str(given.kernel))} kernel"
                line = f"rm -rf kernel; {{ {line}; }} || {{ {link}; echo {shlex.quote(line)} >> said/{at}.passed; }}"
            lines.append(line)
        return lines


def blocks(lines):
    """Returns the blocks of a document."""
    found, fenced = [Block(0, "#")], False
    for number, line in enumerate(lines, 1):
        last, fence = found[-1], re.match(r"```(\w*)$", line)
        if fenced:
            fenced = not fence
            last.text += [] if fence else [line]
        elif fence:
            fenced = True
            found.append(Block(number, fence[1]))
        elif line.startswith("#"):
            found.append(Block(number, "#"))
        elif line.startswith(("| It prints |", "| They print |")):
            found.append(Block(number, "|"))
        elif last.kind == "|" and line.startswith("| `"):
            last.text.append(line.split("`")[1])
        elif line.startswith("    "):
            if last.kind is not None or last.line + len(last.text) != number:
                found.append(Block(number, None))
            found[-1].text.append(line[4:])
    return found


def fits(line, shown):
    return line.startswith(shown.rstrip(".").rstrip()) if shown.endswith("..") else line == shown


def first_missing(printed, shown, in_order=True):
    """Returns the first line that is shown and wasn't printed, after the one before it or anywhere, or none."""
    if not in_order:
        return next((it for it in shown if not any(fits(line, it) for line in printed)), None)
    at, anywhere = 0, True
    for line in shown:
        if line != "...":
            end = len(printed) if anywhere else at + 1
            found = next((number for number in range(at, min(end, len(printed))) if fits(printed[number], line)), None)
            if found is None:
                return line
            at = found + 1
        anywhere = line == "..."
    return None


def make_place(folder, program, found):
    """Makes the folder in which the blocks of a document are run, and returns the variables of its shell."""
    for name in COPIED:
        shutil.copytree(TOP / name, folder / name)
    if given.kit:
        listed = subprocess.run(["git", "ls-files", "-z"], cwd=TOP, capture_output=True, text=True, check=True).stdout
        for name in filter(None, listed.split("\0")):
            (folder / name).parent.mkdir(parents=True, exist_ok=True)
            shutil.copy(TOP / name, folder / name)
    if given.kernel:
        (folder / "kernel").symlink_to(given.kernel)
    out = folder / "crates/crashbpf/out"
    out.mkdir(parents=True)
    shutil.copy(program, out / "crashbpf")
    variables = {**os.environ, "PATH": os.pathsep.join([*(str(folder / it) for it in ON_PATH), PATH])}
    for name, kind in {"FIRST_C": "c", "FIRST_BASH": "bash", "FIRST_TEXT": ""}.items():
        text = next((it.text for it in found if it.kind == kind), [])
        (folder / name).write_text("\n".join([*text, ""]))
        variables[name] = str(folder / name)
    return variables


def script_of_devices(found):
    """Returns what a machine runs: the blocks with devices, each line by itself, and the lines from which their outcomes are read."""
    script = [DISKS + base64.encodebytes((TOP / CHECKER).read_bytes()).decode() + "END"]
    for at, block in found:
        lines = "\n".join(block.text).replace("\\\n", " ").split("\n")
        script += ["worst=0; read began rest </proc/uptime", "{"]
        for it in lines:
            # A line ends with 0, and one of crashbpf perhaps with 1.
            most = 1 if it.startswith("crashbpf ") else 0
            script += [it, f"last=$?; [ $last -le {most} ] || {{ worst=$last; echo status $last of {shlex.quote(it)}; }}"]
        script += ["} > /tmp/said 2>&1; read ended rest </proc/uptime", f'cat /tmp/said; echo "block {at} status $worst $began $ended"']
    return "\n".join([*script, ""])


def outcomes_of_devices(folder, found):
    """Returns the outcome of each block that a machine ran, by what it said, and writes what failed as the shell does."""
    console = folder / "devices/console"
    said, ran = console.read_text(errors="replace") if console.exists() else "", {}
    for at, _block in found:
        before, told, said = said.partition(f"block {at} status ")
        line, _, said = said.partition("\n")
        words = line.split()
        told = told and len(words) == 3
        status, began, ended = words if told else (2, 0, 0)
        failures = [it for it in before.splitlines() if it.startswith("status ")] if told else ["the machine ended before it"]
        (folder / f"said/{at}.wrong").write_text("".join(f"{it}\n" for it in failures))
        ran[at] = int(status), float(ended) - float(began), before.splitlines(), before
    return ran


def run_blocks(document, folder, program, found):
    """Runs the blocks of a document. Returns the place of each in the list, with its status, its seconds, its lines, and its errors."""
    variables, said = make_place(folder, program, found), folder / "said"
    said.mkdir()
    # Of a block the status is that of its last command, or of one before it that failed.
    script = [HELD.get(document, ""), f"at=none judges={shlex.quote(JUDGES)}; set -E; trap '{ON_FAILURE.format(said=said)}' ERR"]
    runnable = [(at, it) for at, it in enumerate(found) if it.kind in RUN and not it.reason()]
    devices = [(at, it) for at, it in runnable if it.in_machine()]
    (folder / "devices.sh").write_text(script_of_devices(devices))
    for at, block in runnable:
        begin, end = RUN[block.kind]
        lines = block.in_shell(at)
        if block.in_machine():
            lines = [DEVICES] if at == devices[0][0] else []
        if block.has(r"\$GUEST"):
            script.append(GUEST)
        if lines:
            script += [f"at={at} worst= began=$EPOCHREALTIME", begin, *lines, f"{end} > {said}/{at} 2> {said}/{at}.errors < /dev/null"]
            script.append(f"last=$?; echo ${{worst:-$last}} $began $EPOCHREALTIME > {said}/{at}.status")
    subprocess.run(["bash", "-c", "\n".join(script)], cwd=folder, env=variables, stdin=subprocess.DEVNULL)
    ran = {}
    for path in said.glob("*.status"):
        printed, errors = (path.with_suffix(it).read_text(errors="replace") for it in ("", ".errors"))
        status, began, ended = path.read_text().replace(",", ".").split()
        ran[int(path.stem)] = int(status), float(ended) - float(began), printed.splitlines(), errors
    return {**ran, **outcomes_of_devices(folder, devices)}


def judge(document, program):
    """Prints a line for each block of a document, and returns how many were run, and how many of these failed."""
    found = blocks((TOP / document).read_text().splitlines())
    with tempfile.TemporaryDirectory() as folder:
        ran = run_blocks(document, Path(folder), program, found)
        passed = {int(it.stem): it.read_text().strip() for it in Path(folder, "said").glob("*.passed")}
        failures = {int(it.stem): it.read_text().splitlines() for it in Path(folder, "said").glob("[0-9]*.wrong")}
    failed = 0
    for at, block in enumerate(found):
        if at in ran:
            status, seconds, printed, errors = ran[at]
            after = next((it for it in range(at + 1, len(found)) if found[it].kind not in ("", "|")), len(found))
            shown = found[at + 1 : after]
            missing = [first_missing(printed, it.text, it.kind == "") for it in shown]
            wrong = [f"doesn't print {it!r}" for it in missing if it is not None]
            wrong += failures.get(at, [])[:3]
            wrong += [f"says {errors[:500]!r}"] if status > 1 or wrong else []
            failed += bool(wrong)
            told = [f"{document}:{block.line} status {status}, {seconds:.1f} s", *["and what is shown"] * bool(shown and not wrong), *wrong]
            print(("FAILED " if wrong else "") + "; ".join(told), flush=True)
            if at in passed:
                print(f"{document}:{block.line} passed over, as it failed: {passed[at]}")
        elif block.kind in RUN:
            print(f"{document}:{block.line} not run: {block.reason() or 'the shell ended before it'}")
    return len(ran), failed


def main(words):
    options = argparse.ArgumentParser(prog="commands_in_docs.py")
    options.add_argument("--kernel", type=Path)
    options.add_argument("--kit", action="store_true")
    options.add_argument("words", nargs="*", metavar="PROGRAM DOCUMENT")
    options.parse_args(words, given)
    words, given.kernel = given.words, given.kernel and given.kernel.resolve()
    if given.kernel and not list(given.kernel.glob("boot/vmlinuz-*")):
        sys.exit(f"{given.kernel} has no boot/vmlinuz-*")
    program = Path(words[0] if words else TOP / "crates/crashbpf/out/crashbpf").resolve()
    if not os.access(program, os.X_OK):
        sys.exit(f"there is no program {program}: `rt run` in crates/crashbpf builds it")
    folders = (".", "docs", "examples", "examples/*")
    documents = words[1:] or [str(it.relative_to(TOP)) for folder in folders for it in sorted(TOP.glob(f"{folder}/*.md"))]
    ran, failed = (sum(it) for it in zip(*(judge(it, program) for it in documents)))
    print(f"{ran - failed} passed, {failed} failed")
    return 1 if failed else 0


if __name__ == "__main__":
    sys.exit(main(sys.argv[1:]))
