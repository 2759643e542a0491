"""A row of tests/rows: how it is run, and what it did otherwise than it says."""
import os
import re
import subprocess
import tempfile
from dataclasses import replace
from pathlib import Path

from notation import SECONDS, Assembly, Folder, Hole, Link, Locked, Long, OfInputs, Pair, Printable, Something
from parts_model import number_of

SHORTENED = 100

# How a shell starts the program where its outputs aren't plain pipes (`to` of notation.py). A pipe that nobody reads is
# one whose only reader was closed before; `ulimit -f` counts in 512 bytes, `ulimit -v` in KiB, `ulimit -t` in seconds.
SHELL = {
    "closed": 'exec "$0" "$@" >&-',
    "full": 'exec "$0" "$@" >/dev/full',
    "unread": 'mkfifo pipe; exec 3<>pipe 4>pipe 3>&-; exec "$0" "$@" >&4',
    "silent": 'exec "$0" "$@" 2>&-',
    "limited": 'ulimit -f 8; exec "$0" "$@" >out',
    "narrow": 'ulimit -t 1; ulimit -v 195312; exec "$0" "$@"',
    "endless": 'mkfifo pipe; yes >pipe 2>&1 & ulimit -t 1; ulimit -v 195312; exec "$0" "$@"',
    "piped": 'mkfifo pipe; cat whole >pipe 2>&1 & ulimit -t 1; ulimit -v 195312; exec "$0" "$@"',
}


def made(content):
    """A content or an output as bytes."""
    if isinstance(content, Long):
        content = content.make()
    return content.encode() if isinstance(content, str) else content


class Assembler:
    """Has the program under test assemble texts, each once."""

    def __init__(self, program):
        self.program, self.found = program, {}

    def assemble(self, text):
        """Returns the bytes of a text."""
        if text not in self.found:
            with tempfile.TemporaryDirectory() as folder:
                Path(folder, "source").write_text(text)
                self.found[text] = subprocess.run(
                    [self.program, "asm", "source"], cwd=folder, capture_output=True, timeout=SECONDS, check=True
                ).stdout
        return self.found[text]


def put(folder, name, content, assembler):
    """Puts a file of a row into its folder."""
    path = Path(folder, name)
    if isinstance(content, Folder):
        path.mkdir()
    elif isinstance(content, Link):
        path.symlink_to(content.to)
    elif isinstance(content, Locked):
        path.write_bytes(content.content)
        path.chmod(0)
    elif isinstance(content, Hole):
        with open(path, "wb") as file:
            file.write(content.begun)
            file.seek(content.zeros, os.SEEK_CUR)
            file.write(content.end)
            file.truncate()
    elif isinstance(content, Assembly):
        path.write_bytes(assembler.assemble(content))
    else:
        path.write_bytes(made(content))


def run_command(program, row, folder):
    """Runs the program as a row says. Signals are as a shell has them, but that a limited file sends none."""
    command = [program, *row.word_list()]
    if row.to != "pipe":
        command = ["sh", "-c", SHELL[row.to], *command]
    return subprocess.run(
        command,
        cwd=folder,
        stdin=subprocess.DEVNULL,
        capture_output=True,
        timeout=row.seconds,
        restore_signals=row.to != "limited",
    )


def shortened(text):
    shown = repr(bytes(text[: SHORTENED + 1]))[2:-1]
    return shown if len(text) <= SHORTENED else shown[:SHORTENED] + ".."


def first_difference(found, wanted):
    """Where two outputs differ first: for texts the line, for others the byte."""
    at = next((it for it, (one, other) in enumerate(zip(found, wanted)) if one != other), min(len(found), len(wanted)))
    start = wanted.rfind(b"\n", 0, at) + 1
    if at - start > SHORTENED:
        return f"at byte {at} of {len(found)}, where {len(wanted)} were wanted"
    line = wanted.count(b"\n", 0, at) + 1
    ends = [text.split(b"\n", 1)[0] for text in (found[start:], wanted[start:])]
    return f"at line {line}: '{shortened(ends[0])}', wanted '{shortened(ends[1])}'"


def output_differs(what, found, wanted):
    """What is wrong with an output: a list of one sentence, or of none."""
    if isinstance(wanted, Something):
        return [] if found else [f"nothing on {what}"]
    if isinstance(wanted, Printable):
        return [f"{what}: {it}" for it in wanted.lacks(found)]
    wanted = made(wanted)
    return [] if found == wanted else [f"{what} {first_difference(found, wanted)}"]


# What `--progress` says of a run: a line that is written again, and its end.
PROGRESS = re.compile(rb"(progress: (begun|\d+( of \d+ images| cases))\r)*(?P<last>progress: \d+( of \d+ images| cases)\n)")


def split_progress(error):
    """The last line of the progress of each run with which standard error begins, and what follows them."""
    last = b""
    while begun := PROGRESS.match(error):
        last, error = last + begun["last"], error[begun.end() :]
    return last, error


def progress_of(images):
    """The last line of the progress of each run, by how many images it has; or of one run of cases, by what it says."""
    if isinstance(images, str):
        return f"progress: {images}\n"
    return "".join(f"progress: {it} of {it} images\n" for it in ([images] if isinstance(images, int) else images) if it)


def split_notes(error):
    """Standard error without its notes, and the notes."""
    parts = {True: b"", False: b""}
    for line in error.splitlines(keepends=True):
        parts[line.startswith(b"note: ")] += line
    return parts[False], parts[True]


def noted(notes):
    """The lines of notes."""
    return "".join(f"note: {it}\n" for it in notes)


def differences(row, done, out):
    """What a run did otherwise than its row says."""
    found = [] if done.returncode == row.status else [f"status {done.returncode}, wanted {row.status}"]
    found += output_differs("standard output", out, row.out)
    if row.error is not None:
        line = f"{row.error}\n" if row.error and isinstance(row.error, str) else row.error
        before = noted(row.before).encode()
        found += output_differs("before the run", done.stderr[: len(before)], before)
        error = done.stderr[len(before) :]
        last, error = split_progress(error) if row.images is not None else (b"", error)
        found += output_differs("the progress", last, progress_of(row.images or 0))
        rest, notes = split_notes(error)
        found += output_differs("standard error", rest, line)
        found += [] if rest + notes == error else ["a note stands before the line of the refusal"]
        if row.notes is not None:
            found += output_differs("the notes", notes, noted(row.notes))
    return found


def line_of(output, number):
    """A line of an output, from 1, or from the end where the number is negative; None where there is none."""
    lines = output.splitlines()
    at = number - 1 if number > 0 else number
    return lines[at] if -len(lines) <= at < len(lines) else None


def pair_differences(pair, runs):
    """What two runs did otherwise than their pair says."""
    found = [f"status {run.returncode}, wanted {status}" for run, status in zip(runs, pair.statuses) if run.returncode != status]
    outputs = {"out": [run.stdout for run in runs], "error": [run.stderr for run in runs]}
    for place in pair.differ:
        what, _, line = place.partition(" ")
        first, second = [line_of(it, int(line)) if line else it for it in outputs[what]]
        found += [f"{place} is the same: '{shortened(first or b'')}'"] if first == second else []
    for what, (first, second) in outputs.items():
        if first != second and what not in [it.partition(" ")[0] for it in pair.differ]:
            found.append(f"{what} {first_difference(second, first)} of the first run")
    first, second = [b"".join(both) for both in zip(*outputs.values())]
    for text in map(str.encode, pair.holds):
        found += [f"'{shortened(text)}' is in the first run"] if text in first else []
        found += [] if text in second else [f"'{shortened(text)}' isn't in the second run"]
    return found


def numbered(row, folder):
    """A row whose output has the number of its inputs, where that is made of its files."""
    if not isinstance(getattr(row, "out", None), OfInputs):
        return row
    names = [it for it in row.files if it == "log" or re.fullmatch(r"p\d+", it)]
    number = number_of([Path(folder, it).read_bytes() for it in names])
    return replace(row, out=row.out.replace("inputs ?", f"inputs {number}", 1))


def run_row(program, row, assembler):
    """The differences of one row, or of one pair."""
    with tempfile.TemporaryDirectory() as folder:
        try:
            for name, content in row.files.items():
                put(folder, name, content, assembler)
            if isinstance(row, Pair):
                return pair_differences(row, [run_command(program, it, folder) for it in row.runs()])
            done = run_command(program, row, folder)
        except subprocess.TimeoutExpired as error:
            return [f"no end within {error.timeout} seconds"]
        except subprocess.CalledProcessError as error:
            return [f"a program of the row isn't assembled: {shortened(error.stderr)}"]
        except OSError as error:
            return [f"it can't be run: {error}"]
        out = Path(folder, "out").read_bytes() if row.to == "limited" else done.stdout
        return differences(numbered(row, folder), done, out)
