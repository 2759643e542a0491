#!/usr/bin/env python3
"""Runs the built program as a user does, and compares what it prints.

    python3 tests/gate/run.py [PROGRAM [ROWS ..]]

PROGRAM is crates/crashbpf/out/crashbpf below the top of the repository where it isn't given; `rt run` in crates/crashbpf
builds it. It is what the proofs don't reach: what the process itself prints, with which status it ends, what it makes of
files and words. It needs Python 3.9 or later, nothing but its own library, and `sh`; no Rattle kit, and no prover is run.

A row is one run of the program: the words after its name, the files that lie in its folder (a fresh one for each row),
and what is expected: standard output byte by byte, the status, and standard error, which is either empty or the one line
of a refusal, with notes after it, and before it what `--progress` says. A row fails where one of these differs, or where
the run takes too long (`seconds` of notation.py). Rows run side by side.

A pair is two runs that differ in one option, and the places where what they print has to differ.

ROWS are names of tables, as `footprints` or `tests/rows/footprints.py`: then their rows alone are run, and nothing else is looked at.

After the rows it looks whether docs/crashbpf.1 is what the program's help says, whether the tables of docs/ that
tools/document_tables.py makes are those of the help and the sources, and whether text on a page has enough contrast. It also looks
whether each command and each option of the help is tried: by a pair, and by an output that can't be written; and whether each help
fits in 80 columns.

What is printed is a line for each row that failed, with what differed, and last

    N passed, M failed

alone on its line. The status is 1 if any row failed, or if the program isn't there, else 0. All rows together take
about a minute and a half of processor time.

Where the rows stand, below tests/
    rows/worked.py      the worked examples of the documents, and the reports of small logs
    rows/examples.py    the designs of examples/: their logs, checkers and reports
    rows/options.py     which options find what: the table of docs/CRASH-MODEL.md, cell by cell
    rows/each_option.py each option of each command: two runs that differ in it, and where what they print differs
    rows/checkers.py    the checkers in C of examples/: what the verifier says of them, and what they answer
    rows/whole_formats.py   the checkers of whole formats in examples/checkers, and their logs
    rows/commands.py    each command, faults of the command line, the order of refusals
    rows/process.py     files that can't be read, a standard output that can't be written, by each command
    rows/inputs.py      each file of each command: a byte too long, as long as may be, unreadable, of another kind
    rows/surroundings.py    files without end, and pipes
    rows/logs.py        logs that lie: cut ones, each cause of a refusal
    rows/raw_logs.py    raw logs, and what is imported of them
    rows/encodings.py   each instruction as bytes and as text, and bytes that are no program
    rows/texts.py       assembly texts, and texts that are refused
    rows/answers.py     what programs answer: arithmetic, memory, helpers, faults
    rows/arithmetic.py  each operation and each test on many operands
    rows/refusals.py    what the verifier accepts and refuses
    rows/notes.py       the notes after each refusal, and beside answers
    rows/blind.py       the note of checkers that look at nothing of what the log writes, against the model
    rows/promises.py    the notes of marks that promise what nothing made durable, and of FUA, against the model
    rows/tables.py      logs as tables, and listings with slots
    rows/guards.py      programs that `--guards` accepts: their guarded slots, and where their runs stray
    rows/own_memory.py  the memory that a program has with guards, and its checksums, against the model and Python's own CRC-32
    rows/trials.py      programs on one image: what they come to, their steps and the last ones in words
    rows/modelled.py    whole reports of many logs, against the model
    rows/small_logs.py  every image of small logs, what their cuts leave open, accepted programs with and without checks
    rows/export.py      all images of a log as bytes, against the model
    rows/shown.py       images in words, by number and by cut and choice, against the model
    rows/any_images.py  images of any number of losses, by cut and choice, as bytes and in words, against the model
    rows/why.py         why checkers fail, of many logs and of the designs, against the model
    rows/cure.py        where flushes are missing, of many logs and of the designs, against the model
    rows/cases.py       every loss of any number of writes, as cases: options, refusals, many logs and the designs, against the model
    rows/case_cuts.py   at which cuts cases are looked for, and parts by cuts, against the model
    rows/case_pages.py  these cases as pages, against the model
    rows/known.py       records of a program in place of checkers: what is told of them, which images are wanted, and each refusal, against the model
    rows/why_cases.py   why these cases fail, of many logs and of the designs, against the model
    rows/cure_cases.py  where flushes are missing for these cases, of many logs and of the designs, against the model
    rows/based.py       devices that held something before entry 0, in all commands, against the model
    rows/browser.py     runs as a page for a browser, of many logs and of the designs, against the model
    rows/ranges.py      flushes that are added and ranges of cuts, in `log`, in `page`, and of the designs, against the model
    rows/flushes.py     where flushes are missing: the designs, marks, forced writes, discards, refusals, against cure_model.py
    rows/workers.py     runs by many workers, with and without a cache
    rows/reported.py    reports that are given in place of programs, and damaged ones, against report_model.py
    rows/joining.py     runs in parts, how they are laid out and joined, runs of any number of images, against parts_model.py
    rows/case_joins.py  runs of any number of losses in parts, and how they are joined, against case_parts_model.py
    rows/footprints.py  checkers that read a few sectors of those that a cut may lose, against the model
    rows/recording.py   logs that were made of traces, and an ext4 that was recorded
    rows/limits.py      sizes near each limit
    rows/large.py       devices, logs and images that `--large` allows, against the model

    shared/notation.py  how rows, logs and programs are written down
    shared/running.py   how a row is run, and what it did otherwise
    shared/designs.py   the designs of examples/: their logs entry by entry, their checkers, the runs whose texts are stored
    shared/contrast.py  the contrast of the text on a page, by the colours of its style
    by_hand/stored.py   writes the stored texts by the models
    programs/           programs as assembly texts

    models/model.py             the crash model and the report, written from docs/CRASH-MODEL.md and docs/OUTPUT.md alone
    models/cure_model.py        the cure, written from docs/CRASH-MODEL.md, docs/COMMANDS.md and docs/OUTPUT.md alone; by itself it tries the laws of windows
    models/page_model.py        the page, written from docs/OUTPUT.md alone but for its style and script
    models/cases_model.py       cases and their text, written from the same documents; by itself it makes all choices of small cuts
    models/cure_cases_model.py  the cure by cases, written from the same documents; by itself it tries what is said of it on many logs
    models/lines_model.py       lines of C and their places in the text of `check`, written from docs/CHECKERS.md and docs/OUTPUT.md alone
    models/machine_model.py     what a program comes to on an image, written from docs/MACHINE.md alone
    models/parts_model.py       runs in parts and their join, and runs of any number of images, written from the same documents

Where expected values come from: the documents in docs/ and examples/, public standards, and the model. Never from what
the program printed. A row that fails after a change of the program is a question to the documents, not to the row.

Programs of rows are mostly given as assembly text. The program under test assembles them itself, and rows/encodings.py
compares what it makes of each instruction with bytes that were written down by hand.

A new row is a line in one of the tables; a new table is a module of rows/ with a list ROWS, named in TABLES there.
"""
import os
import re
import subprocess
import sys
import tempfile
import time
from concurrent.futures import ThreadPoolExecutor
from importlib import import_module
from pathlib import Path

sys.dont_write_bytecode = True

import rooms

rooms.enter()

import completions
import contrast
import man_page
from notation import SECONDS, TOP, log
from rows import TABLES, all_rows
from running import Assembler, output_differs, put, run_row, shortened, split_progress


def manual_differs(program):
    """What is wrong with docs/crashbpf.1, which holds what the program's help says."""
    made = subprocess.run([sys.executable, TOP / "tools/man_page.py", program], capture_output=True, timeout=SECONDS)
    return output_differs("the man page", (TOP / "docs/crashbpf.1").read_bytes(), made.stdout)


def help_too_wide(program):
    """Which lines of the program's helps are wider than a terminal of 80 columns."""
    helps = {name: man_page.help_of(program, *name.split()) for name in ["", *man_page.commands_in(man_page.help_of(program))]}
    return [f"the help of '{name}' has {len(line)} columns: {line}" for name, text in helps.items() for line in text.split("\n") if len(line) > 80]


def progress_lacks(program):
    """What is wrong with the progress of a run whose one image takes seconds: each second has a line."""
    with tempfile.TemporaryDirectory() as folder:
        put(folder, "empty.log", log([]), None)
        source = "mov64 r1, 0\nadd64 r1, 1\njlt r1, 60000000, -2\nmov64 r0, 0\nexit\n"
        Path(folder, "slow.bpf").write_bytes(Assembler(program).assemble(source))
        words = [program, "explore", "empty.log", "slow.bpf", "--sectors", "1", "--checked", "1000000000", "--progress"]
        start = time.monotonic()
        done = subprocess.run(words, cwd=folder, capture_output=True, timeout=SECONDS)
        seconds = time.monotonic() - start
    said = len(re.findall(rb"progress: [01] of 1 images\r", done.stderr))
    found = [] if done.returncode == 0 else [f"status {done.returncode}"]
    found += [] if said >= int(seconds * 0.8) else [f"{said} lines in {seconds:.1f} s"]
    return found + output_differs("its last line", split_progress(done.stderr)[0], b"progress: 1 of 1 images\n")


def tables_differ():
    """What is wrong with the tables of docs/ that are made of the man page and of the sources."""
    command = [sys.executable, TOP / "tools/document_tables.py", "--check"]
    looked = subprocess.run(command, capture_output=True, timeout=SECONDS, text=True)
    return looked.stdout.splitlines() or looked.stderr.splitlines()[-1:]


def help_lacks(program):
    """Which commands and options of the program's own help no row tries that each is tried by."""
    made = subprocess.run([sys.executable, TOP / "tools/man_page.py", program], capture_output=True, timeout=SECONDS, text=True)
    commands = completions.commands_in(man_page.helps_in(made.stdout)) if made.returncode == 0 else []
    if not commands:
        return ["the program's help has no commands"]
    return [it for name in ("each_option", "process") for it in import_module(f"rows.{name}").lacking(commands)]


def run_rows(program, rows):
    """Yields each row's name and what it did otherwise. They run side by side."""
    assembler = Assembler(program)
    with ThreadPoolExecutor(os.cpu_count()) as pool:
        yield from zip((row.name for row in rows), list(pool.map(lambda row: run_row(program, row, assembler), rows)))


def other_looks(program):
    """Yields what is looked at beside the rows, each with what is wrong."""
    yield "the man page is the program's help", manual_differs(program)
    yield "the tables of docs/ are those of the help and the sources", tables_differ()
    yield "a run that takes long says its progress each second", progress_lacks(program)
    yield "text on a page has enough contrast", contrast.too_low()
    yield "each option and each command of the help is tried", help_lacks(program)
    yield "each help fits in 80 columns", help_too_wide(program)


def tables_named(words):
    """Returns the names of the tables that the words ask for."""
    names = [Path(it).stem for it in words]
    unknown = [word for word, name in zip(words, names) if name not in TABLES]
    if unknown:
        sys.exit(f"no table of tests/rows is named {', '.join(unknown)}; there are {' '.join(sorted(TABLES))}")
    return names


def main(words):
    """Runs all rows and looks at the rest, or runs the rows of the tables that are named."""
    program = str(Path(words[0] if words else TOP / "crates/crashbpf/out/crashbpf").resolve())
    if not os.access(program, os.X_OK):
        sys.exit(f"there is no program {program}: `rt run` in crates/crashbpf builds it")
    named = tables_named(words[1:])
    results = [*run_rows(program, all_rows(named or TABLES)), *([] if named else other_looks(program))]
    failed = 0
    for name, found in results:
        if found:
            failed += 1
            print(f"FAILED {shortened(name.encode())}: {'; '.join(found)}")
    print(f"{len(results) - failed} passed, {failed} failed")
    return 1 if failed else 0


if __name__ == "__main__":
    sys.exit(main(sys.argv[1:]))
