"""What a program ended in: with a status, by a signal, or not in time."""
import os
from typing import NamedTuple

EXIT, SIGNAL, OUT_OF_TIME = range(3)


class Verdict(NamedTuple):
    kind: int
    number: int

    @staticmethod
    def of_status(status):
        """Returns the verdict of what waitpid says."""
        return Verdict(SIGNAL, os.WTERMSIG(status)) if os.WIFSIGNALED(status) else Verdict(EXIT, os.WEXITSTATUS(status))

    def is_good(self):
        return self == GOOD

    def text(self):
        """As a failing line of the report has it."""
        if self.kind == EXIT:
            return f"answer {self.number} codes -"
        return f"signal {self.number}" if self.kind == SIGNAL else "out of time"


GOOD = Verdict(EXIT, 0)
TIMED_OUT = Verdict(OUT_OF_TIME, 0)
