"""A virtual machine that stays up while images are tested in it, one after the other, and what is said to it.

In its folder are disk.img, its device; console, what its kernel said; line.in and line.out, the pipes of its second serial line;
qemu.pid and watch.pid, the process of the machine and the one that starts it again; watched, which the latter holds while it is
there; qemu.said, what QEMU said; up, once the machine has answered; lock, which a test holds; and testing, while it is at a test.
"""
import contextlib
import errno
import fcntl
import os
import select
import signal
import time
from pathlib import Path

PIECE, BLOCK = 1 << 20, 4096
OPTIONS = "-m 512 -nodefaults -display none -no-reboot"
# (an oops leaves a kernel that nothing can be asked of)
KERNEL = "console=ttyS0 quiet panic=-1 oops=panic no_timer_check"
# A machine that ends so often without having been up isn't started again.
MOST_STARTS = 3
# The seconds without an answer after which a machine that is to come up is asked again.
ASKED_AGAIN = 1.0
# By which a process is ended where its parent ends.
PR_SET_PDEATHSIG = 1


class Lost(Exception):
    """The machine ended, or was started anew."""


class Slow(Exception):
    """The machine gives no answer in time."""


class Absent(Exception):
    """There is no machine, and none will be."""


class Machine:
    def __init__(self, folder):
        self.folder, self.begun, self.console = Path(folder), b"", 0

    def make(self, sectors):
        """Makes the machine's folder, with its disk, its locks and its serial line."""
        self.folder.mkdir()
        with open(self.folder / "disk.img", "wb") as file:
            # (a device that runs out of room while it is written would stop the machine)
            os.posix_fallocate(file.fileno(), 0, 512 * sectors)
        for it in ("lock", "watched", "console"):
            (self.folder / it).touch()
        for it in ("line.in", "line.out"):
            os.mkfifo(self.folder / it)

    # One test at a time.

    @staticmethod
    @contextlib.contextmanager
    def free(machines):
        """Waits for a machine that no test has, and holds it."""
        files = [open(it.folder / "lock", "rb") for it in machines]
        try:
            held = None
            while held is None:
                held = next((it for it, file in zip(machines, files) if locked(file)), None)
                if held is None:
                    time.sleep(0.01)
            with held.lines():
                yield held
        finally:
            for it in files:
                it.close()

    @contextlib.contextmanager
    def lines(self):
        """Has both ends of the serial line open within."""
        self.ask = os.open(self.folder / "line.in", os.O_RDWR)
        self.hear = os.open(self.folder / "line.out", os.O_RDWR | os.O_NONBLOCK)
        try:
            yield
        finally:
            os.close(self.ask)
            os.close(self.hear)

    def process(self, name):
        try:
            return int((self.folder / name).read_text())
        except (OSError, ValueError):
            return 0

    def is_watched(self):
        """Whether the process is there that starts the machine."""
        try:
            with open(self.folder / "watched", "rb") as file:
                return not locked(file, fcntl.LOCK_SH)
        except OSError:
            return False

    def hear_more(self, deadline, process):
        """Waits until the machine says something."""
        poller = select.poll()
        poller.register(self.hear, select.POLLIN)
        while True:
            gone = process is not None and not runs(process)
            if gone and not poller.poll(0):
                raise Lost
            if time.monotonic() > deadline:
                raise Slow
            if poller.poll(50):
                self.begun += os.read(self.hear, 65536)
                return

    def line(self, deadline, process):
        """Returns the next line that the machine says."""
        while b"\n" not in self.begun:
            self.hear_more(deadline, process)
        found, _end, self.begun = self.begun.partition(b"\n")
        return found

    def exactly(self, size, deadline, process):
        """Returns the next bytes that it says."""
        while len(self.begun) < size:
            self.hear_more(deadline, process)
        found, self.begun = self.begun[:size], self.begun[size:]
        return found

    def wait_until_up(self, seconds):
        with self.lines():
            self.say_hello(seconds)

    def say_hello(self, seconds):
        """Waits until the machine is up, and at nothing else."""
        if (self.folder / "testing").exists():
            # (a test that was ended left it at an image)
            self.kill()
            (self.folder / "testing").unlink(missing_ok=True)
        deadline, word = time.monotonic() + seconds, own_word()
        while True:
            # (what is asked while it begins it may not get, or in part; so it is asked again)
            process = self.process("qemu.pid")
            if process and runs(process):
                os.write(self.ask, b"\nhello %s\n" % word)
            until = min(deadline, time.monotonic() + ASKED_AGAIN)
            with contextlib.suppress(Lost, Slow):
                while process and self.line(until, process) != b"ready %s" % word:
                    pass
                if process:
                    self.asked = process
                    (self.folder / "up").touch()
                    return
            if not self.is_watched():
                raise Absent(self.last_of("qemu.said") or "nothing starts it any more")
            if time.monotonic() > deadline:
                raise Slow(f"it isn't up within {seconds} seconds")
            time.sleep(0.02)

    def test(self, marks, mark, seconds):
        """Returns the status of the script, and what it printed."""
        word, deadline, testing = own_word(), time.monotonic() + seconds, self.folder / "testing"
        self.console = (self.folder / "console").stat().st_size
        testing.touch()
        os.write(self.ask, b"test %s %d %s\n" % (word, marks, mark.replace(b"\n", b" ")))
        try:
            answer = self.answer(word, deadline)
        except (Lost, Slow) as error:
            if isinstance(error, Slow):
                self.kill()
            testing.unlink()
            raise
        testing.unlink()
        return answer

    def answer(self, word, deadline):
        """Returns the status and the output of what was asked with a word."""
        words = []
        while words[:2] != [b"done", word]:
            words = self.line(deadline, self.asked).split()
        return int(words[2]), self.exactly(int(words[3]), deadline, self.asked)

    def patch(self, image):
        """Makes the device what the image has; only what differs is written."""
        with open(image, "rb") as new, open(self.folder / "disk.img", "r+b", buffering=0) as disk:
            sizes = [os.fstat(it.fileno()).st_size for it in (new, disk)]
            if sizes[0] != sizes[1]:
                raise OSError(f"{image} has {sizes[0]} bytes, and the machine's device {sizes[1]}")
            stretches = [it for file in (new, disk) for it in data_of(file.fileno(), sizes[0])]
            pieces = {at for begin, end in stretches for at in range(begin // PIECE, -(-end // PIECE))}
            for at in sorted(pieces):
                wanted, found = (os.pread(it.fileno(), PIECE, at * PIECE) for it in (new, disk))
                for start in range(0, len(wanted), BLOCK) if found != wanted else ():
                    block = wanted[start : start + BLOCK]
                    if found[start : start + BLOCK] != block:
                        os.pwrite(disk.fileno(), block, at * PIECE + start)

    def kernel_said(self):
        """Returns what the kernel said since the test began."""
        with contextlib.suppress(OSError), open(self.folder / "console", "rb") as file:
            file.seek(self.console)
            return file.read()[-20000:].replace(b"\r", b"")
        return b""

    def last_of(self, name):
        with contextlib.suppress(OSError):
            return (self.folder / name).read_text(errors="replace").strip().rpartition("\n")[2]
        return ""

    def stop(self, name, number):
        """Sends a signal to the process that a file names, and waits for its end."""
        process = self.process(name)
        if process:
            with contextlib.suppress(OSError):
                os.kill(process, number)
            while runs(process):
                time.sleep(0.01)

    def kill(self):
        """Ends the machine, which is then started anew."""
        if self.is_watched():
            self.stop("qemu.pid", signal.SIGKILL)

    def end(self):
        """Ends the process that starts the machine, and with it the machine."""
        if self.is_watched():
            self.stop("watch.pid", signal.SIGTERM)


def data_of(file, size):
    """Yields each stretch of a file that holds something: where it begins and where it ends."""
    at = 0
    while at < size:
        try:
            begin = os.lseek(file, at, os.SEEK_DATA)
        except OSError as error:
            if error.errno == errno.ENXIO:
                return
            raise
        at = min(os.lseek(file, begin, os.SEEK_HOLE), size)
        yield begin, at


def own_word():
    return b"%d.%d" % (os.getpid(), time.monotonic_ns())


def locked(file, how=fcntl.LOCK_EX):
    """Locks a file, and returns whether it could."""
    try:
        fcntl.flock(file, how | fcntl.LOCK_NB)
    except OSError:
        return False
    return True


def runs(process):
    """Whether a process is there and no zombie."""
    try:
        with open(f"/proc/{process}/stat", "rb") as file:
            return file.read().rpartition(b")")[2].split()[:1] != [b"Z"]
    except OSError:
        return False


def call_of(machine, image, initrd):
    """Returns the words that start a machine."""
    folder = machine.folder.resolve()
    words = ["qemu-system-x86_64", "-accel", os.environ.get("ACCEL", "tcg"), *OPTIONS.split(), "-kernel", str(image), "-initrd", str(initrd.resolve())]
    words += ["-append", KERNEL, "-chardev", f"file,id=console,path={folder}/console,append=on", "-serial", "chardev:console"]
    words += ["-chardev", f"pipe,id=line,path={folder}/line", "-serial", "chardev:line"]
    # (nothing of the device has to outlive this machine)
    return [*words, "-drive", f"file={folder}/disk.img,format=raw,if=virtio,cache=unsafe"]


class Stopped(Exception):
    """It was told to stop."""


def stop(_number, _frame):
    signal.signal(signal.SIGTERM, signal.SIG_IGN)
    raise Stopped


def put(path, number):
    path.with_suffix(".new").write_text(f"{number}\n")
    path.with_suffix(".new").rename(path)


def begin(words, said):
    """Starts a process that ends where this one does."""
    process = os.fork()
    if process:
        return process
    try:
        import ctypes

        ctypes.CDLL(None).prctl(PR_SET_PDEATHSIG, signal.SIGKILL, 0, 0, 0)
        for it in (signal.SIGINT, signal.SIGHUP, signal.SIGTERM):
            signal.signal(it, signal.SIG_DFL)
        os.dup2(os.open(said, os.O_WRONLY | os.O_CREAT | os.O_APPEND), 2)
        os.execvp(words[0], words)
    except (ImportError, OSError) as error:
        os.write(2, f"{words[0]}: {error}\n".encode())
    finally:
        os._exit(127)


def watch(machine, image, initrd):
    """Starts the machine, and starts it anew whenever it ends, until a signal says to stop."""
    process, vain = None, 0
    try:
        while machine.folder.is_dir() and vain < MOST_STARTS:
            (machine.folder / "up").unlink(missing_ok=True)
            process = begin(call_of(machine, image, initrd), machine.folder / "qemu.said")
            put(machine.folder / "qemu.pid", process)
            os.waitpid(process, 0)
            process = None
            vain = 0 if (machine.folder / "up").exists() else vain + 1
            time.sleep(0.2)
    except (OSError, Stopped):
        pass
    finally:
        if process:
            os.kill(process, signal.SIGKILL)
            os.waitpid(process, 0)


def supervise(machine, image, initrd):
    """Starts the process that watches the machine, with a session of its own."""
    signals = (signal.SIGHUP, signal.SIGINT, signal.SIGTERM)
    # (a signal that came in between would be taken as the process does that starts it)
    signal.pthread_sigmask(signal.SIG_BLOCK, signals)
    if os.fork():
        signal.pthread_sigmask(signal.SIG_UNBLOCK, signals)
        while not machine.process("watch.pid"):
            time.sleep(0.01)
        return
    try:
        os.setsid()
        nothing = os.open(os.devnull, os.O_RDWR)
        for it in (0, 1, 2):
            os.dup2(nothing, it)
        for it in (signal.SIGINT, signal.SIGHUP):
            signal.signal(it, signal.SIG_IGN)
        signal.signal(signal.SIGTERM, stop)
        # It is held for as long as this process is there.
        held = open(machine.folder / "watched", "rb")
        fcntl.flock(held, fcntl.LOCK_EX)
        put(machine.folder / "watch.pid", os.getpid())
        signal.pthread_sigmask(signal.SIG_UNBLOCK, signals)
        watch(machine, image, initrd)
    finally:
        os._exit(0)
