"""The mount on which a run's images are served, and the process that serves it. Where the last process of a run ends, in whatever way, no
mount is left.

As root the mount stands in a mount namespace of this process, and so ends with it. Without root `fusermount3` makes it, which takes it away
where the server ends; else it stands in a user namespace.
"""
import array
import ctypes
import os
import signal
import socket
import subprocess
import tempfile
from contextlib import suppress

from commands.each.served_server import serve
from commands.shared.ends import SIGNALS
from commands.shared.faults import Refusal

DEVICE, HELPER = "/dev/fuse", "fusermount3"
NEW_MOUNTS, NEW_USER = 0x20000, 0x10000000
PRIVATE, NO_SETUID, NO_DEVICES, DETACH = 0x44000, 2, 4, 2
OPTIONS = "fd={},rootmode=40755,user_id={},group_id={},default_permissions"
PATIENCE = 10.0


def called(function, *words):
    """Calls a function of the C library that answers 0 where it did what it was asked for."""
    library = ctypes.CDLL(None, use_errno=True)
    if getattr(library, function)(*words) != 0:
        number = ctypes.get_errno()
        raise OSError(number, f"{function}: {os.strerror(number)}")


def mount_here(folder, more=""):
    """Mounts a folder by the call of that name, and returns the device by which requests come."""
    device = os.open(DEVICE, os.O_RDWR | os.O_CLOEXEC)
    try:
        options = OPTIONS.format(device, os.getuid(), os.getgid()) + more
        called("mount", b"crashbpf-each", os.fsencode(folder), b"fuse", ctypes.c_ulong(NO_SETUID | NO_DEVICES), options.encode())
    except OSError:
        os.close(device)
        raise
    return device


def by_root(folder):
    """Mounts in a mount namespace of this process."""
    os.close(os.open(DEVICE, os.O_RDWR | os.O_CLOEXEC))
    called("unshare", NEW_MOUNTS)
    called("mount", b"none", b"/", None, ctypes.c_ulong(PRIVATE), None)
    return mount_here(folder, ",allow_other"), None


def by_user(folder):
    """Mounts in a user namespace of this process, in which its user and its group have their numbers."""
    os.close(os.open(DEVICE, os.O_RDWR | os.O_CLOEXEC))
    user, group = os.getuid(), os.getgid()
    called("unshare", NEW_USER | NEW_MOUNTS)
    for name, text in (("setgroups", "deny"), ("uid_map", f"{user} {user} 1"), ("gid_map", f"{group} {group} 1")):
        with open(f"/proc/self/{name}", "w") as file:
            file.write(text)
    called("mount", b"none", b"/", None, ctypes.c_ulong(PRIVATE), None)
    return mount_here(folder), None


def by_helper(folder):
    """Mounts by `fusermount3`, which waits until the other end of its channel is closed, and then takes the mount away."""
    ours, theirs = socket.socketpair()
    words = [HELPER, "-o", "rw,nosuid,nodev,default_permissions,auto_unmount,fsname=crashbpf-each", "--", folder]
    try:
        surroundings = {**os.environ, "_FUSE_COMMFD": str(theirs.fileno())}
        helper = subprocess.Popen(words, env=surroundings, pass_fds=[theirs.fileno()], stdin=subprocess.DEVNULL, stderr=subprocess.PIPE, start_new_session=True)
    except OSError as error:
        raise OSError(error.errno, f"{HELPER} can't be run: {error.strerror}") from None
    finally:
        theirs.close()
    _data, ancillary, *_more = ours.recvmsg(1, socket.CMSG_SPACE(4))
    if not ancillary:
        said = helper.stderr.read().decode(errors="replace").strip()
        helper.wait()
        raise OSError(0, f"{HELPER}: {said.removeprefix(HELPER + ':').strip() or 'it gives no device'}")
    device = array.array("i", ancillary[0][2])[0]
    os.set_inheritable(device, False)
    return device, (ours, helper)


def opened(folder):
    """Mounts a folder in the first way that works here. Returns the device, and what `fusermount3` left."""
    faults = []
    for name, way in (("as root", by_root), ("in a user namespace", by_user)) if os.getuid() == 0 else (("by fusermount3", by_helper), ("in a user namespace", by_user)):
        try:
            return way(folder)
        except OSError as error:
            faults.append(f"{name}: {error.strerror or error}{': ' + error.filename if error.filename else ''}")
    raise Refusal(f"--bound any needs FUSE to see what the program reads, and it can't be had: {'; '.join(faults)}")


def missing():
    """Returns what is missing where no image can be served here, else an empty text. It is tried in a process of its own."""
    folder = tempfile.mkdtemp(prefix="crashbpf-each-")
    reading, writing = os.pipe()
    process = os.fork()
    if process == 0:
        try:
            device, helped = opened(folder)
            os.close(device)
            if helped:
                subprocess.run([HELPER, "-u", "-z", "--", folder], stderr=subprocess.DEVNULL, check=False)
        except (Refusal, OSError) as fault:
            os.write(writing, str(fault).encode()[:4096])
        finally:
            os._exit(0)
    os.close(writing)
    with open(reading, "rb") as file:
        said = file.read().decode(errors="replace")
    os.waitpid(process, 0)
    os.rmdir(folder)
    return said


class Mount:
    """The mount of a run, and its server. `channels` has one for each runner. With `logs`, the second
    logs that are known, what a program does to its image is noted."""

    def __init__(self, folder, images, runners, is_direct=True, logs=None):
        self.path = os.path.join(folder, "mount")
        os.mkdir(self.path)
        try:
            device, self.helped = opened(self.path)
        except BaseException:
            os.rmdir(self.path)
            raise
        pairs = [socket.socketpair() for _ in range(runners)]
        self.channels, theirs = [it[0] for it in pairs], [it[1] for it in pairs]
        signal.pthread_sigmask(signal.SIG_BLOCK, SIGNALS)
        self.process = os.fork()
        if self.process == 0:
            self.be_server(device, images, theirs, is_direct, logs)
        signal.pthread_sigmask(signal.SIG_UNBLOCK, SIGNALS)
        os.close(device)
        for it in theirs:
            it.close()
        if self.helped:
            self.helped[0].close()

    def be_server(self, device, images, channels, is_direct, logs):
        """Is the server, until the mount or all runners are gone. Returns to nobody."""
        for it in (signal.SIGINT, signal.SIGTERM, signal.SIGHUP, signal.SIGQUIT):
            signal.signal(it, signal.SIG_IGN)
        for it in self.channels:
            it.close()
        try:
            serve(device, images, channels, is_direct, self.path, logs)
        except BaseException as error:
            os.write(2, f"crashbpf-each: the server of images ends: {error!r}\n".encode(errors="replace"))
        finally:
            os.close(device)
            self.unmount()
            os._exit(0)

    def unmount(self):
        """Takes the mount away, and its folder."""
        with suppress(OSError):
            if self.helped:
                subprocess.run([HELPER, "-u", "-z", "--", self.path], stderr=subprocess.DEVNULL, check=False)
            else:
                called("umount2", os.fsencode(self.path), DETACH)
        for it in (self.path, os.path.dirname(self.path)):
            with suppress(OSError):
                os.rmdir(it)

    def handed_over(self):
        """Closes the channels here: the runners have them."""
        for it in self.channels:
            it.close()

    def end(self):
        """Ends the server and takes the mount away. The runners have ended before."""
        self.handed_over()
        with suppress(ProcessLookupError):
            os.kill(self.process, signal.SIGKILL)
        with suppress(ChildProcessError):
            os.waitpid(self.process, 0)
        if self.helped:
            helper = self.helped[1]
            with suppress(subprocess.TimeoutExpired):
                helper.wait(PATIENCE)
            helper.kill()
            helper.wait()
            helper.stderr.close()
        self.unmount()
