"""Processes that share tasks. What they answer comes in the order of the tasks, however many processes there are."""
import os
import signal
import traceback
from multiprocessing.connection import Pipe, wait

from commands.cc.program import Refusal
from commands.cc.work import NotRun
from commands.shared import faults
from commands.shared.ends import SIGNALS
from commands.shared.program import Gone, adopt


class Crew:
    """Processes, each with a channel. `serve` makes of a process's number what answers a task; it is called with the task, and a file
    that can be read where nobody waits for the answer any more."""

    def __init__(self, count, serve):
        self.seats = []
        for number in range(count):
            ours, theirs = Pipe()
            # A signal that comes here ends both as if they were one; a process of these is never ended by one.
            signal.pthread_sigmask(signal.SIG_BLOCK, SIGNALS)
            process = os.fork()
            if process == 0:
                for it in [ours, *(channel for _, channel in self.seats)]:
                    it.close()
                answer_tasks(theirs, serve, number)
            theirs.close()
            self.seats.append((process, ours))
            signal.pthread_sigmask(signal.SIG_UNBLOCK, SIGNALS)

    def answers(self, tasks):
        """Returns what is answered to tasks, in their order."""
        left, found, asked = list(enumerate(tasks))[::-1], {}, {}
        idle = [channel for _, channel in self.seats]
        while left or asked:
            while left and idle:
                channel = idle.pop()
                asked[channel], task = left.pop()
                channel.send(task)
            for channel in wait(list(asked)):
                found[asked.pop(channel)] = heard(channel)
                idle.append(channel)
        return [found[it] for it in sorted(found)]

    def end(self):
        """Ends all of them, each with what it runs."""
        for _, channel in self.seats:
            channel.close()
        for process, _ in self.seats:
            os.waitpid(process, 0)
        self.seats = []


def heard(channel):
    """What a process answers, which may be a refusal."""
    try:
        answer = channel.recv()
    except (EOFError, ConnectionError):
        raise NotRun("a process that judges mutants ended before its answer") from None
    if isinstance(answer, Refusal):
        raise answer
    return answer


def answer_tasks(channel, serve, number):
    """Answers tasks until the other side is closed. Returns to nobody."""
    for it in (*SIGNALS, signal.SIGQUIT):
        signal.signal(it, signal.SIG_IGN)
    signal.pthread_sigmask(signal.SIG_UNBLOCK, SIGNALS)
    try:
        adopt()
        judge = serve(number)
        while True:
            channel.send(answer_to(channel.recv(), judge, channel.fileno()))
    except (EOFError, ConnectionError, Gone):
        pass
    except BaseException:
        traceback.print_exc()
    finally:
        os._exit(0)


def answer_to(task, judge, hang_up):
    """What is answered to a task: a refusal where it can't be done."""
    try:
        return judge(task, hang_up)
    except Refusal as it:
        return it
    except (faults.Refusal, OSError) as it:
        return NotRun(str(it))
