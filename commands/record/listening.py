"""Becomes strace, with a filter that has the kernel ask before strace writes to its text.

    python3 -I -S listening.py SOCKET STRACE [WORD ..]

looks.py starts it. The filter is one of seccomp: a write to descriptor NUMBER waits until whoever has the listener answers. The listener goes through the socket with the byte `.`, or an error in words in its place. Then all
descriptors below NUMBER are taken, so that strace opens its text as NUMBER. The program of strace's words has to be started by
the words of `below`, which close them again.

It stands alone, since it is run without the folders of other modules.
"""
import array
import ctypes
import os
import platform
import resource
import signal
import socket
import struct
import sys

# The descriptor of strace's text, far above those that programs come to.
NUMBER = 4000
# By machine: what the kernel calls it, and the numbers of seccomp and write there.
MACHINES = {"x86_64": (0xC000003E, 317, 1), "aarch64": (0xC00000B7, 277, 64)}
SET_NO_NEW_PRIVILEGES, SET_FILTER, NEW_LISTENER = 38, 1, 8
ALLOW, ASK = 0x7FFF0000, 0x7FC00000
# Of struct seccomp_data: the number of the call, the machine, the first word.
CALL, MACHINE, FIRST = 0, 4, 16
LOAD, EQUAL, RETURN = 0x20, 0x15, 0x06
# Runs a program without the descriptors that were taken, and with the limit that there was: number, limit, program, words.
BELOW = """
import _signal, os, resource, sys
os.closerange(3, int(sys.argv[1]) + 1)
resource.setrlimit(resource.RLIMIT_NOFILE, (int(sys.argv[2]), resource.getrlimit(resource.RLIMIT_NOFILE)[1]))
for it in (_signal.SIGPIPE, _signal.SIGXFSZ):
    _signal.signal(it, _signal.SIG_DFL)
try:
    os.execvp(sys.argv[3], sys.argv[3:])
except OSError as error:
    sys.exit(f"{sys.argv[3]}: {error.strerror}")
"""


def below(words):
    """The words that run a program under strace."""
    limit = resource.getrlimit(resource.RLIMIT_NOFILE)[0]
    return [sys.executable, "-I", "-S", "-B", "-c", BELOW, str(NUMBER), str(limit), *words]


def filter_of(machine, write):
    """The filter, as the kernel takes it: code, where to go on where it holds and where it doesn't, operand."""
    steps = [
        (LOAD, 0, 0, MACHINE),
        (EQUAL, 0, 5, machine),
        (LOAD, 0, 0, CALL),
        (EQUAL, 0, 3, write),
        (LOAD, 0, 0, FIRST),
        (EQUAL, 0, 1, NUMBER),
        (RETURN, 0, 0, ASK),
        (RETURN, 0, 0, ALLOW),
    ]
    return b"".join(struct.pack("=HBBI", *it) for it in steps), len(steps)


def listener():
    """Sets the filter, for this process and all that it starts. Returns the descriptor of the listener."""
    if platform.machine() not in MACHINES or sys.byteorder != "little":
        raise OSError(0, f"the numbers of calls on {platform.machine()} aren't known")
    machine, seccomp, write = MACHINES[platform.machine()]
    library = ctypes.CDLL(None, use_errno=True)
    library.syscall.restype = ctypes.c_long
    text, count = filter_of(machine, write)
    steps = ctypes.create_string_buffer(text, len(text))
    program = ctypes.create_string_buffer(struct.pack("@HP", count, ctypes.addressof(steps)))
    library.prctl(SET_NO_NEW_PRIVILEGES, 1, 0, 0, 0)
    found = library.syscall(ctypes.c_long(seccomp), ctypes.c_long(SET_FILTER), ctypes.c_long(NEW_LISTENER), program)
    if found < 0:
        raise OSError(ctypes.get_errno(), os.strerror(ctypes.get_errno()))
    return found


def make_room():
    """Has the limit of descriptors above NUMBER."""
    soft, hard = resource.getrlimit(resource.RLIMIT_NOFILE)
    if hard != resource.RLIM_INFINITY and hard <= NUMBER:
        raise OSError(0, f"the limit of open files is {hard}, and it wants one above {NUMBER} (ulimit -Hn)")
    if soft != resource.RLIM_INFINITY and soft <= NUMBER:
        resource.setrlimit(resource.RLIMIT_NOFILE, (NUMBER + 1, hard))


def take_all():
    """Takes all descriptors below NUMBER, and none above."""
    null = os.open("/dev/null", os.O_RDONLY)
    for number in range(3, NUMBER):
        if number != null:
            os.dup2(null, number)
    os.set_inheritable(null, True)
    os.closerange(NUMBER, NUMBER + 100)


def main():
    out = socket.socket(fileno=int(sys.argv[1]))
    try:
        make_room()
        found = listener()
        out.sendmsg([b"."], [(socket.SOL_SOCKET, socket.SCM_RIGHTS, array.array("i", [found]))])
    except OSError as error:
        out.sendall(error.strerror.encode())
        return 1
    take_all()
    for it in (signal.SIGPIPE, signal.SIGXFSZ):
        signal.signal(it, signal.SIG_DFL)
    os.execvp(sys.argv[2], sys.argv[2:])


if __name__ == "__main__":
    sys.exit(main())
