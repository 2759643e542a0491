#!/usr/bin/env python3
"""Tests examples/mounted/mounted with a script in the place of QEMU: no kernel is needed, and what a guest does isn't tested here.

    python3 tests/gate/mounted.py [PROGRAM]

PROGRAM is as in run.py. The script speaks as guest_init does, and does what the first word of the device says. crashbpf-each gives
it the images of a log, two at a time, and the report is compared with the model's. Then machines that stop, hang, or don't come up;
tests that are ended in their midst; images of a wrong size, and with holes; and a Ctrl-C. Last guests of crashbpf-record by a KVM that runs
none.

Prints a line for each row that failed, and last `N passed, M failed`. It takes some fifteen seconds.
"""
import os
import signal
import subprocess
import sys
import time
from pathlib import Path

sys.dont_write_bytecode = True

import rooms

rooms.enter()

from each import EACH, ended, environment, firsts, put, report
from machine import Machine
from model import Run
from notation import TOP, F, M, S
from shells import differs, try_all

MOUNTED = TOP / "examples/mounted/mounted"
SECTORS = 8
# More seconds than a call ever takes.
PATIENCE = 20

# A machine: it writes itself into the file `starts`, and then reads lines. What a word does stands at its line.
QEMU = r"""#!/usr/bin/env python3
import os, sys, time
folder = next(it for it in sys.argv if it.startswith("pipe,")).partition("path=")[2].removesuffix("/line")
with open(os.environ["ROOM"] + "/starts", "a") as file:
    file.write("started\n")
if os.path.exists(os.environ["ROOM"] + "/broken"):
    sys.exit("qemu: there is no such accelerator")
asked, told = (os.fdopen(os.open(f"{folder}/line.{it}", os.O_RDWR), mode, 0) for it, mode in (("in", "rb"), ("out", "wb")))
told.write(b"an echo\n")
for line in filter(bytes.strip, asked):
    kind, word, *rest = line.rstrip(b"\n").split(b" ", 3)
    if kind == b"hello":
        told.write(b"ready %s\n" % word)
        continue
    with open(folder + "/disk.img", "rb") as disk:
        does = disk.read(512).rstrip(b"\0").split()
    with open(folder + "/console", "ab") as console:
        console.write(b"kernel: %s\r\n" % b" ".join(does))
    what, status = (does or [b"good"])[0], 0
    if what == b"stop":  # the kernel panics
        sys.exit(0)
    if what == b"hang":
        time.sleep(60)
    if what == b"slow":  # it says so
        open(os.environ["ROOM"] + "/slow", "w").close()
        time.sleep(60)
    if what == b"fail":
        status = int(does[1])
    said = b"marks %s\n\xff" % b" ".join(rest)
    told.write(b"done 9.9 0 5\nother" + b"\ndone %s %d %d\n%s" % (word, status, len(said), said))
"""
# What a machine is made of, and by which commands.
COMMANDS = {"qemu-system-x86_64": QEMU, "busybox": "", "cpio": "#!/bin/sh\ncat\n"}
MODULES = "virtio_ring virtio virtio_pci_modern_dev virtio_pci_legacy_dev virtio_pci virtio_blk crc16 crc32c_generic libcrc32c mbcache jbd2 ext4"


def surroundings(folder, **more):
    return {**os.environ, "PATH": f"{folder}/bin:{os.environ['PATH']}", "ROOM": str(folder), "TIMEOUT": "3", **more}


def make(folder):
    """Makes the commands, a kernel of empty files, and a script."""
    for name, text in COMMANDS.items():
        path = Path(folder, "bin", name)
        path.parent.mkdir(exist_ok=True)
        path.write_text(text)
        path.chmod(0o755)
    for it in ["boot/vmlinuz-1", *(f"lib/modules/{name}.ko" for name in MODULES.split())]:
        path = Path(folder, "kernel", it)
        path.parent.mkdir(parents=True, exist_ok=True)
        path.touch()
    Path(folder, "script").touch()


def mounted(folder, *words, **more):
    """Runs `mounted`, and returns how it ended."""
    return subprocess.run([MOUNTED, *words], cwd=folder, capture_output=True, text=True, errors="replace", env=surroundings(folder, **more), timeout=PATIENCE)


def image(folder, text, sectors=SECTORS):
    Path(folder, "image").write_bytes(text.encode().ljust(512 * sectors, b"\0"))
    return "image"


def left_running(folder):
    """The processes whose surroundings name a folder, but for this one's own."""
    found = []
    for it in Path("/proc").glob("[0-9]*"):
        try:
            if f"ROOM={folder}".encode() in Path(it, "environ").read_bytes().split(b"\0"):
                found.append(Path(it, "cmdline").read_bytes())
        except OSError:
            pass
    return found


def left(folder):
    """What is wrong with what is left: no process, and no folder of a machine."""
    deadline = time.monotonic() + 5
    while left_running(folder) and time.monotonic() < deadline:
        time.sleep(0.01)
    return differs("what is left", (left_running(folder), Path(folder, "machine").exists()), ([], False))


def does(text, at=0):
    """A write that says what the machine does."""
    return S(at, text.encode().ljust(512, b"\0"))


def judges_images(folder):
    """What is wrong with the report of a run with two machines, and with what is kept of images that fail."""
    make(folder)
    run = Run([does("fail 3"), F, M("one two"), does("hang"), F, does("good"), F, does("stop"), F, does("fail 7")], sectors=SECTORS)
    says = {"fail 3": "answer 3 codes -", "hang": "answer 121 codes -", "stop": "answer 120 codes -", "fail 7": "answer 7 codes -"}
    words = [MOUNTED, "test", "machine", "{}"]

    def word_of(of):
        return of.content()[:512].rstrip(b"\0").decode()

    call = ["with", "kernel", str(SECTORS), "machine", "script", EACH, "-j", "2", "--keep", "kept", *put(folder, run), "--", *words]
    done = mounted(folder, *call, MACHINES="2")
    found = ended("it", done, 1, report(run, [str(it) for it in words], lambda of: says.get(word_of(of)))) + left(folder)
    for _, of in firsts(run):
        said, what = Path(folder, "kept", f"{of.number}.said"), word_of(of)
        if what not in says:
            found += [f"image {of.number} is kept"] if said.exists() else []
            continue
        marks, mark = environment(of).split(" ", 1)[0], "one two" if of.marks() else ""
        begins = {"hang": b"mounted: no answer within 3 seconds\n", "stop": b"mounted: the kernel stopped\n"}
        wanted = begins.get(what) or f"marks {marks} {mark}".encode() + b"\n\xff\n"
        wanted += f"kernel: {what}\n".encode()
        found += differs(f"what is said of image {of.number}", said.read_bytes() if said.exists() else None, wanted)
    return found


def goes_on_after_an_end(folder):
    """What is wrong where a test is ended in its midst: the next one gets a machine that is at nothing else."""
    make(folder)
    found = differs("the start", mounted(folder, "start", "kernel", str(SECTORS), "machine", "script").returncode, 0)
    call = subprocess.Popen([MOUNTED, "test", "machine", image(folder, "slow")], cwd=folder, env=surroundings(folder, TIMEOUT="50"), stdout=subprocess.DEVNULL)
    while not Path(folder, "slow").exists() and call.poll() is None:
        time.sleep(0.01)
    call.kill()
    call.wait()
    done = mounted(folder, "test", "machine", image(folder, "fail 5"), CRASH_MARKS="2", CRASH_MARK="a  b ")
    found += differs("the next one", (done.returncode, done.stdout), (5, "marks 2 a  b \n\N{REPLACEMENT CHARACTER}\nkernel: fail 5\n"))
    found += differs("how often a machine was started", Path(folder, "starts").read_text(), 2 * "started\n")
    for size in (SECTORS - 1, SECTORS + 1):
        done = mounted(folder, "test", "machine", image(folder, "good", size))
        said = f"mounted: image has {512 * size} bytes, and the machine's device {512 * SECTORS}\n"
        found += differs("a wrong size", (done.returncode, done.stdout, done.stderr), (122, "", said))
    found += differs("no time", mounted(folder, "test", "machine", image(folder, "good"), TIMEOUT="x").returncode, 122)
    found += differs("a good one", mounted(folder, "test", "machine", image(folder, "good")).returncode, 0)
    found += differs("the stop", mounted(folder, "stop", "machine").returncode, 0) + left(folder)
    done = mounted(folder, "test", "machine", "image")
    return found + differs("no machine", (done.returncode, done.stderr), (122, "mounted: no machine was started in machine\n"))


def doesnt_come_up(folder):
    """What is wrong where a machine can't be made, ends at once, or is there already."""
    make(folder)
    call, found = ("start", "kernel", str(SECTORS), "machine", "script"), []
    Path(folder, "broken").touch()
    done = mounted(folder, *call)
    found += differs("one that ends", (done.returncode, done.stderr), (2, "mounted: the machine doesn't come up: qemu: there is no such accelerator\n")) + left(folder)
    Path(folder, "broken").unlink()
    Path(folder, "kernel/lib/modules/jbd2.ko").unlink()
    done = mounted(folder, *call)
    found += differs("one without a module", (done.returncode, done.stderr), (2, "mounted: the kernel has no module jbd2\n")) + left(folder)
    Path(folder, "machine").mkdir()
    done = mounted(folder, *call)
    found += differs("one that is there", (done.returncode, "File exists" in done.stderr, Path(folder, "machine").exists()), (2, True, True))
    Path(folder, "machine").rmdir()
    for words in (("with", *call[1:]), ("begin", "machine")):
        found += differs(f"{words}", mounted(folder, *words).returncode, 2)
    return found


def patches(folder):
    """What is wrong with the device after it was changed to what images have, some of which have holes."""
    machine, found, size = Machine(Path(folder, "0")), [], 5 << 20
    machine.make(size // 512)
    for number, places in enumerate(([0, 4096, size - 512], [], [4608, 1 << 20, (2 << 20) + 100], [3 << 20, size - 1], [size - 1])):
        path = Path(folder, str(number) + ".image")
        with open(path, "wb") as file:
            file.truncate(size)
            for at in places:
                file.seek(at)
                file.write(bytes([65 + number]) * min(700, size - at))
        machine.patch(path)
        found += [] if (machine.folder / "disk.img").read_bytes() == path.read_bytes() else [f"the device isn't as image {number}"]
    return found


def is_interrupted(folder):
    """What is wrong with what a Ctrl-C leaves, which a terminal sends to all that it started; and a signal to `mounted` alone."""
    make(folder)
    run, found = Run([does("good"), F, does("slow"), F, does("fail 2")], sectors=SECTORS), []
    call = [MOUNTED, "with", "kernel", str(SECTORS), "machine", "script", EACH, "-j", "1", *put(folder, run), "--", MOUNTED, "test", "machine", "{}"]
    for number, sent in ((signal.SIGINT, os.killpg), (signal.SIGTERM, os.kill)):
        Path(folder, "slow").unlink(missing_ok=True)
        it = subprocess.Popen(call, cwd=folder, env=surroundings(folder, TIMEOUT="50"), stdout=subprocess.PIPE, stderr=subprocess.PIPE, text=True, start_new_session=True)
        while not Path(folder, "slow").exists() and it.poll() is None:
            time.sleep(0.01)
        sent(it.pid, number)
        printed, said = it.communicate(timeout=PATIENCE)
        line = "crashbpf-each: stopped; with --resume the same words go on\n"
        found += differs(f"how {number.name} ends it", (it.returncode, printed, said), (2, "", line)) + left(folder)
        Path(folder, "crashbpf-each.state").unlink()
    return found


def runs_by_kvm(folder):
    """What is wrong with a recording in a guest by KVM where that runs no machine, which is refused soon and before anything is made; and where it does."""
    make(folder)
    program, alive, found = Path(folder, "bin/qemu-system-x86_64"), Path(folder, "alive"), []
    words = [sys.executable, TOP / "commands/record/crashbpf-record", "--guest", "kernel", "made", "--", "true"]
    line = "crashbpf-record: with ACCEL=kvm the kernel says nothing within 6 seconds: this machine has no KVM that works; leave ACCEL out\n"
    hangs = 'echo SeaBIOS; while date +%s >>"$ROOM/alive"; do sleep 0.1; done'
    for name, text in (("hangs", hangs), ("isn't there", "echo no >&2; exit 1")):
        program.write_text(f"#!/bin/sh\n{text}\n")
        done = subprocess.run(words, cwd=folder, capture_output=True, text=True, env=surroundings(folder, ACCEL="kvm"))
        found += differs(f"a machine by KVM that {name}", (done.returncode, done.stderr, sorted(os.listdir(Path(folder, "made")))), (2, line, ["refused"])) + left(folder)
    # (how long the machine was there, since what else is done takes its time on a busy one)
    times = [int(it) for it in alive.read_text().split()]
    found += [] if times[-1] - times[0] <= 7 else [f"a machine by KVM is waited for {times[-1] - times[0]} seconds"]
    program.write_text("#!/bin/sh\necho 'Linux version 1'\n")
    done = subprocess.run([TOP / "examples/recording/guest", "kernel"], cwd=folder, capture_output=True, text=True, env=surroundings(folder, ACCEL="kvm"))
    return found + differs("a machine by KVM that runs", (done.returncode, done.stdout, done.stderr), (0, "", ""))


def rows():
    """Yields the name of each row and what looks at it."""
    yield "a guest by KVM", runs_by_kvm
    yield "images, by two machines", judges_images
    yield "tests that are ended", goes_on_after_an_end
    yield "machines that don't come up", doesnt_come_up
    yield "the device", patches
    yield "a Ctrl-C", is_interrupted


if __name__ == "__main__":
    sys.exit(try_all(sys.argv[1:], rows(), 4))
