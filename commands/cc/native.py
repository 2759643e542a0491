"""A checker as a native program (include/native/checker.h): how it is compiled, and what it answers."""
import re

from commands.cc.compilers import INCLUDE

COMPILER = "cc"
HEADER = INCLUDE / "native/checker.h"
ANSWER = re.compile(r"^answer (\d+) codes (\S+)$", re.M)
READ = re.compile(r"^read (\d+) (\d+)$", re.M)
# The status of `--mend` where the source has no function for it.
NO_MENDING = 3


def command(source, function, out, words=()):
    """The words that compile a checker, with more words for the compiler."""
    headers = ["-include", HEADER, "-I", INCLUDE, "-I", INCLUDE / "native"]
    # With more than -Og a loop's body may stand twice, each with its own turns. Char is signed, as for BPF.
    return [COMPILER, "-Og", "-w", "-fsigned-char", *words, f"-DCHECKER={function}", *headers, source, "-o", out]


def answers(said):
    """The answers that are printed, each a number and the codes."""
    return ANSWER.findall(said)


def reads(said):
    """The places of reads that are printed, each once, as bytes from a byte on."""
    return list(dict.fromkeys((int(at), int(length)) for at, length in READ.findall(said)))
