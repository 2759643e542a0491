#!/usr/bin/env python3
"""Proves functions of a crate, each with all that it calls there, without proving the crates below.

    tools/prove_one.py [--test] [--sources] CRATE [FUNCTION ..]

takes each crate below as it was built, where `rt ci` kept it on this machine of the same text, and as it stands in the text else. So none
of them is proved or built. Over kept libraries it takes one to five minutes; over the sources alone (--sources), of a crate high
up, ten and more, and 6 GB. FUNCTION is written as the prover's messages have it; the last part will do where no other function
has it. With --test the crate is read with its tests. Without FUNCTION the crate is parsed and typed, and nothing is proved. The
last line is the prover's, `only=N proved=N` where all N are proved.
"""
import os
import subprocess
import sys

sys.dont_write_bytecode = True

import kit
import take_kept


def built_below(crate):
    """Returns the names of the libraries below that stand built in out/, of this text, over such libraries alone."""
    built = set()
    for dep in sorted(crate.below(), key=lambda it: len(it.below())):
        if dep.is_built() and all(it.name in built for it in dep.below()):
            built.add(dep.name)
    return built


def libraries(crate, built):
    """Returns the words that name the libraries below: those of `built` as they were built, the others by their sources."""
    words = crate.sources_below()
    chosen = []
    for flag, said in zip(words[::2], words[1::2]):
        if said.split(":")[0] not in built:
            chosen += [flag, said]
    for dep in crate.below():
        if dep.name in built:
            chosen += ["--extern", f"{dep.name}={dep.rlib}", "-L", f"dependency={os.path.dirname(dep.rlib)}"]
    return chosen


def main(words):
    options = {it for it in words if it in ("--test", "--sources")}
    names = [it for it in words if it not in options]
    if not names or names[0].startswith("-"):
        sys.exit(__doc__)
    rt = kit.load()
    crates = [it for it in kit.crates(rt) if it.name == names[0]]
    if not crates:
        sys.exit(f"crates.txt has no {names[0]}")
    crate, of_tests = crates[0], "--test" in options
    if "--sources" not in options:
        take_kept.take_all(rt, {it.name for it in crate.below()})
    sources = crate.sources_below()
    flags = ["--jobs", "1", *(it for name in names[1:] or [""] for it in ("--only", name))]
    said = crate.words(flags, of_tests, as_source=True)
    at = said.index(sources[0]) if sources else 0
    built = built_below(crate)
    said[at:at + len(sources)] = libraries(crate, built)
    print(f"prove_one: of {len(crate.below())} libraries below, {len(built)} as they were built", flush=True)
    return subprocess.run([rt.rtlib.RATTLE, "check", *said], cwd=crate.folder).returncode


if __name__ == "__main__":
    sys.exit(main(sys.argv[1:]))
