"""Lets a program of crashbpf-each stay: it is started once, and judges each image that it is told.

    import stay

    def check(path, marks):
        return 0            # the status: 0 where the image is good, else 1 to 255

    stay.judge(check)

Each image has the same path, and is another file. So open it anew for each, and close it before the answer; keep nothing of it.

A copy of the process judges, where it has one thread. The process itself judges nothing: where an image is run again it makes another copy,
which has kept nothing of an image, and needn't be started.
"""
import os
import signal
import sys


def judge(check):
    """Answers each image by what `check` returns. What it prints goes to standard error, where crashbpf-each keeps it."""
    answers = os.fdopen(os.dup(1), "w")
    os.dup2(2, 1)
    asking = copied(answers) if len(os.listdir("/proc/self/task")) == 1 else None
    for line in sys.stdin:
        if asking is not None and line == "\n":
            os.write(asking, b"\n")
            os._exit(0)
        path, _space, marks = line.rstrip("\n").rpartition(" ")
        status = check(path, int(marks))
        sys.stdout.flush()
        print(status, file=answers, flush=True)


def copied(answers):
    """Goes on in a copy of this process, which says that it is one, and returns the file by which it asks for the next."""
    asked, asking = os.pipe()
    os.set_blocking(asked, False)
    sys.stdout.flush()
    while True:
        copy = os.fork()
        if copy == 0:
            print(f"copy {os.getpid()}", file=answers, flush=True)
            return asking
        status = os.waitpid(copy, 0)[1]
        try:
            os.read(asked, 1)
        except BlockingIOError:
            end_as(status)


def end_as(status):
    """Ends as a copy did that wasn't to end."""
    if os.WIFSIGNALED(status):
        number = os.WTERMSIG(status)
        if number != signal.SIGKILL:
            signal.signal(number, signal.SIG_DFL)
        os.kill(os.getpid(), number)
    os._exit(os.WEXITSTATUS(status))
