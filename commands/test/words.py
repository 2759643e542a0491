"""The words of crashbpf-test's command line."""
import argparse
import os

from commands.record.orders import TABLES

MOST_RUNNERS = 64
# Any number of writes is lost at once.
ANY = "any"
USAGE = """crashbpf-test [OPTIONS] --check COMMAND -- PROGRAM [WORD ..]
       crashbpf-test [OPTIONS] --check COMMAND --recording FOLDER"""
ABOUT = "Runs a program and says which sync it lacks: the call, and that the program is right with it."


def positive(most):
    """Returns what reads a number of 1 to `most`."""

    def read(text):
        value = int(text) if text.isascii() and text.isdigit() else 0
        if not 1 <= value <= most:
            raise argparse.ArgumentTypeError(f"it is 1 to {most}")
        return value

    return read


def bound(text):
    """Returns how many writes are lost at once."""
    if text not in ("0", "1", "2", "3", ANY):
        raise argparse.ArgumentTypeError("it is 0 to 3, or any")
    return text if text == ANY else int(text)


def parser():
    """Returns what reads the words before --."""
    made = argparse.ArgumentParser(prog="crashbpf-test", usage=USAGE, description=ABOUT, allow_abbrev=False)
    made.epilog = "PROGRAM keeps its files in $FILES, or in its word {}, and says `mark NAME` where it has told its user that all so far is saved. "
    made.epilog += "docs/RECOVERY.md says more."
    made.add_argument("--check", metavar="COMMAND", required=True, help="a command for sh, run in a folder with the files as a crash left them: its status is 0 where they are right")
    made.add_argument("--files", choices=TABLES, help="the orders that the file system keeps; ext4 where it isn't given")
    made.add_argument("--base", metavar="PATH", help="what $FILES has at first: a file or a folder")
    made.add_argument("--skip", metavar="NAME", action="append", default=[], help="leave this file out, as a lock")
    made.add_argument("--mapped", action="store_true", help="look at files that are mapped for writing at each call")
    made.add_argument("--bound", metavar="N", type=bound, help="how many writes are lost at once, 0 to 3, or any, which is every loss; without it any where that can be had")
    made.add_argument("--tears", action="store_true", help="writes may be torn too")
    made.add_argument("--timeout", metavar="S", type=float, default=60.0, help="end a check that takes longer than S seconds (60)")
    made.add_argument("-j", dest="runners", metavar="N", type=positive(MOST_RUNNERS), help="let N checks run at a time (as many as there are processors)")
    made.add_argument("--recording", metavar="FOLDER", help="go on from a recording of crashbpf-record --files")
    made.add_argument("--keep", metavar="FOLDER", help="keep the recording, and of each answer the files as a crash left them")
    made.add_argument("--no-cure", action="store_true", help="try no syncs, and move no calls")
    made.add_argument("--no-lines", action="store_true", help="tell no lines of the source")
    made.add_argument("--json", metavar="FILE", help="write the answer for machines")
    made.add_argument("--page", metavar="FILE", help="write it as a page for a browser")
    made.add_argument("--sarif", metavar="FILE", help="write it as SARIF 2.1.0")
    return made


def parse(words):
    """Returns what the words ask for; `program` are those after --."""
    at = words.index("--") if "--" in words else len(words)
    reader = parser()
    given = reader.parse_args(words[:at])
    given.program = words[at + 1 :]
    if bool(given.program) == bool(given.recording):
        reader.error("after -- stands the program, or --recording names a folder")
    if given.recording and (given.base or given.skip or given.mapped):
        reader.error("--base, --skip and --mapped are for a program that is run")
    if given.bound == ANY and given.tears:
        reader.error("with --bound any writes are lost as a whole, and --tears doesn't stand beside it")
    if not 0 < given.timeout <= 86400:
        reader.error("--timeout is a number of seconds, at most 86400")
    if given.runners is None:
        given.runners = min(len(os.sched_getaffinity(0)), MOST_RUNNERS)
    return given
