#!/usr/bin/env python3
"""Builds a crate that stands outside of the proofs, and runs it.

    tools/outside.py CRATE [--to FOLDER] [WORD ..]          proves and builds a program by `rt run`, and runs it with WORDs
    tools/outside.py CRATE [--to FOLDER] --try [WORD ..]    compiles a program by `rt try`, without proofs, and runs it
    tools/outside.py CRATE [--to FOLDER] --test             compiles and runs its tests by `rt try --test`, without proofs
    tools/outside.py CRATE [--to FOLDER] --compare [--keep FILE]
                                                            compiles a program by `rt try`, and compares what it prints
    tools/outside.py CRATE --to FOLDER --back               brings back what was changed in FOLDER

CRATE is bench/crate, tests/crates/call_tests, tests/crates/aside, or another such folder: sources in src/, with `.txt` after
their names, proofs in proofs/ alike where `rt run` is to prove them, and in crate.txt the line that crates.txt would have of it. It is
no crate of crates.txt, so `rt ci` doesn't see it. FOLDER gets a copy of the repository's files as they are now, with the crate in
its place. Where none is said that is a folder for temporary files: with `--test` and `--compare` one that is removed at the end, else
`crashbpf-NAME`, which is kept for the next time. `rt run` leaves the program in FOLDER/crates/NAME/out/NAME.

With --test each test prints a line, and the last one is `N passed, M failed`; the status is 0 where none failed.

With --compare the program gets the words of the crate's file `args`, one a line, and the files of its file `data`: in each line
the name that the program sees, and a file of the repository. It has to print what `stdout` has, and to end with status 0. The last
line is `1 passed, 0 failed` or `0 passed, 1 failed`. FILE becomes the same program without the sanitizer, which has an
allocator of its own: built of the module that `rt try` made, and linked as `rt run` links what it proved.
"""
import os
import re
import shutil
import signal
import subprocess
import sys
import tempfile
from pathlib import Path

sys.dont_write_bytecode = True

import kit

TOP = Path(__file__).resolve().parent.parent
KINDS = (".rt", ".antt")
# How long the tests, or a program, may run, in seconds: a machine may do other work beside.
SECONDS = 900
# In place of the kit's clang: keeps the module that is compiled with a sanitizer, and the words, and compiles it.
CLANG = """#!/bin/sh
for word do
    case $word in -fsanitize=address) sanitizes=yes ;; *.bc) module=$word ;; esac
done
if [ "$sanitizes" ]; then
    /bin/cp "$module" "{kept}/module.bc" && printf '%s\\n' "$@" > "{kept}/words"
fi
exec "{clang}" "$@"
"""
TEST = re.compile(r"test (\S+) \.\.\. (\w+)")


class Outside:
    """A crate outside of the proofs: its folder, its name, and its line for crates.txt."""

    def __init__(self, folder):
        self.folder = folder.resolve()
        lists = self.folder / "crate.txt"
        if not lists.is_file():
            sys.exit(f"{folder} is no crate outside of the proofs: it has no crate.txt")
        self.line = lists.read_text().strip() + "\n"
        self.name = self.line.partition(":")[0].split()[0]

    def files(self):
        """Returns the content of each file of the crate as it stands in a copy, by its name in the crate."""
        found = {}
        for path in self.folder.rglob("*.txt"):
            name = path.relative_to(self.folder).with_suffix("")
            if name.suffix in KINDS:
                found[str(name)] = path.read_bytes()
        return found

    def lines(self, name):
        """Returns the lines of a file beside src/, or none where it isn't there."""
        path = self.folder / name
        return path.read_text().splitlines() if path.is_file() else []


def listed(folder):
    """Returns the files of the repository that git keeps or would keep."""
    names = subprocess.run(["git", "ls-files", "-coz", "--exclude-standard"], cwd=folder, capture_output=True, text=True, check=True)
    return [it for it in names.stdout.split("\0") if it and (folder / it).is_file()]


def files_to_copy(crate):
    """Returns the content of each file of the copy, by name. Files of crates outside of the proofs are left out."""
    own = f"{crate.folder.relative_to(TOP)}/"
    files = {name: (TOP / name).read_bytes() for name in listed(TOP) if not name.startswith(own)}
    files.update({f"crates/{crate.name}/{name}": content for name, content in crate.files().items()})
    files["crates.txt"] += crate.line.encode()
    return files


def copy(crate, to):
    """Makes the copy, or makes it anew where one is there, and keeps what was proved and built in it."""
    files = files_to_copy(crate)
    for path in sorted(to.rglob("*")) if to.is_dir() else ():
        name = path.relative_to(to)
        if path.is_file() and not {"out", ".git"} & set(name.parts) and str(name) not in files:
            path.unlink()
    for name, content in files.items():
        path = to / name
        if not path.is_file() or path.read_bytes() != content:
            path.parent.mkdir(parents=True, exist_ok=True)
            path.write_bytes(content)
            shutil.copymode(TOP / name, path) if (TOP / name).is_file() else None
    return to / "crates" / crate.name


def bring_back(crate, to):
    """Puts the crate's files of the copy in place of its own."""
    for folder in ("src", "proofs"):
        shutil.rmtree(crate.folder / folder, ignore_errors=True)
        for path in (to / "crates" / crate.name / folder).rglob("*"):
            if path.suffix in KINDS:
                target = crate.folder / folder / f"{path.relative_to(to / 'crates' / crate.name / folder)}.txt"
                target.parent.mkdir(parents=True, exist_ok=True)
                shutil.copyfile(path, target)


def linked(folder, to, own):
    """Makes a folder with links to what another has, but for the names of `own`."""
    to.mkdir()
    for path in folder.iterdir():
        if path.name not in own:
            (to / path.name).symlink_to(path)


def stand_in(room):
    """Makes a kit that `rt try` can be run from, and returns it and the real one.

    It keeps what clang gets in room/kept. And it has no `rattle`, whose only work under `rt try` is to look for names that a proof
    would refuse, in as much time as the rest takes.
    """
    real = Path(kit.load().rtlib.KIT)
    made, kept = room / "kit", room / "kept"
    kept.mkdir()
    linked(real, made, ("bin", "toolchain"))
    linked(real / "bin", made / "bin", ("rt", "rtlib.py", "rattle"))
    for name in ("rt", "rtlib.py"):
        shutil.copy(real / "bin" / name, made / "bin" / name)
    (made / "bin/rattle").symlink_to(shutil.which("true"))
    linked(real / "toolchain", made / "toolchain", ("bin",))
    linked(real / "toolchain/bin", made / "toolchain/bin", ("clang",))
    clang = made / "toolchain/bin/clang"
    clang.write_text(CLANG.format(kept=kept, clang=real / "toolchain/bin/clang"))
    clang.chmod(0o755)
    return made, real


def plain_build(room, real, to):
    """Builds the module that was kept, without a sanitizer, and returns whether that went well."""
    kept = room / "kept"
    if not (kept / "words").is_file():
        print(f"there is nothing to build {to} of: rt try didn't compile by the toolchain's clang with -fsanitize=address")
        return False
    words = [it for it in (kept / "words").read_text().splitlines() if it != "-fsanitize=address"]
    words = [{"module.bc": str(kept / "module.bc"), "module.o": str(kept / "module.o")}.get(it, it) for it in words]
    made = subprocess.run([real / "toolchain/bin/clang", *words], env={}, stdin=subprocess.DEVNULL)
    link = [real / "bin/rattle-link", "--target", "x86_64-unknown-linux-gnu", "--toolchain", real / "toolchain", "-o", to.resolve()]
    link += [kept / "module.o", real / "c/libos_c.a", real / "c/liblibc_c.a"]
    return not made.returncode and not subprocess.run(link, stdin=subprocess.DEVNULL).returncode


def tries(made, folder, words):
    """Runs `rt try` by a kit in a crate's folder, and returns how it ended, with its outputs."""
    words = [sys.executable, made / "bin/rt", "try", *words]
    return subprocess.run(words, cwd=folder, stdin=subprocess.DEVNULL, capture_output=True, text=True, errors="replace")


def test(crate, folder, made):
    """Runs the tests of a crate, prints what each came to, and returns the status."""
    ran = tries(made, folder, ["--test", "--seconds", str(SECONDS)])
    print(f"{ran.stdout}{ran.stderr}", end="")
    results = [found[2] for found in map(TEST.match, ran.stdout.splitlines() + ran.stderr.splitlines()) if found]
    passed = results.count("ok")
    failed = len(results) - passed
    if ran.returncode or not results:
        print(f"the tests of {crate.name} ended with status {ran.returncode}")
        failed = max(failed, 1)
    print(f"{passed} passed, {failed} failed")
    return 1 if failed else 0


def compare(crate, folder, room, made, real, keep):
    """Runs a program on its words and files, compares what it prints, and returns the status."""
    given = [f"{name}={TOP / file}" for name, file in map(str.split, crate.lines("data"))]
    words = ["--seconds", str(SECONDS), *(word for it in given for word in ("--data", it)), "--", *crate.lines("args")]
    ran = tries(made, folder, words)
    print(f"{ran.stdout}{ran.stderr}", end="")
    wanted = (crate.folder / "stdout").read_text()
    is_right = not ran.returncode and ran.stdout == wanted
    if not is_right:
        print(f"{crate.name} ended with status {ran.returncode}, and what it printed is{' not' if ran.stdout != wanted else ''} what its file stdout has")
    if keep and is_right:
        is_right = plain_build(room, real, Path(keep))
    print("1 passed, 0 failed" if is_right else "0 passed, 1 failed")
    return 0 if is_right else 1


def outside(crate, to, way, keep, words):
    """Makes the copy, and does with it what was asked for."""
    if to.exists() and any(to.iterdir()) and not (to / "crates" / crate.name).is_dir():
        sys.exit(f"{to} is there, and is no copy that this script made of {crate.name}")
    folder = copy(crate, to)
    if way in ("--test", "--compare"):
        with tempfile.TemporaryDirectory(prefix="crashbpf-kit-") as room:
            made, real = stand_in(Path(room))
            return test(crate, folder, made) if way == "--test" else compare(crate, folder, Path(room), made, real, keep)
    if way == "--try":
        return subprocess.run(["rt", "try", "--", *words], cwd=folder, stdin=subprocess.DEVNULL).returncode
    built = subprocess.run(["rt", "run"], cwd=folder, stdin=subprocess.DEVNULL).returncode
    program = folder / "out" / crate.name
    if built or not os.access(program, os.X_OK):
        return built or 1
    print(program, file=sys.stderr)
    return subprocess.run([program, *words]).returncode if words else 0


def main(words):
    if not words or words[0].startswith("-"):
        sys.exit(__doc__)
    # So that folders for temporary files are removed.
    for it in (signal.SIGTERM, signal.SIGHUP):
        signal.signal(it, lambda number, _: sys.exit(128 + number))
    crate, to, way, keep = Outside(Path(words[0])), None, None, None
    words = words[1:]
    while words and words[0].startswith("-"):
        word = words.pop(0)
        if word == "--to" and words:
            to = Path(words.pop(0)).resolve()
        elif word == "--keep" and words and way == "--compare":
            keep = words.pop(0)
        elif word in ("--try", "--test", "--compare", "--back") and not way:
            way = word
        else:
            sys.exit(__doc__)
    if way == "--back" and to:
        return bring_back(crate, to) or 0
    if way == "--back" or words and way in ("--test", "--compare"):
        sys.exit(__doc__)
    if to or way not in ("--test", "--compare"):
        return outside(crate, to or Path(tempfile.gettempdir(), f"crashbpf-{crate.name}"), way, keep, words)
    with tempfile.TemporaryDirectory(prefix=f"crashbpf-{crate.name}-") as folder:
        return outside(crate, Path(folder), way, keep, words)


if __name__ == "__main__":
    sys.exit(main(sys.argv[1:]))
