#!/usr/bin/env python3
"""Proves the crates of this checkout side by side, lowest first, over what earlier checks kept.

    tools/prove_all.py [--lanes N] [NAME ..]

proves all crates, or those that are named, with their tests, N at a time (as many as there are processors where N isn't given),
first those with most text above them. A crate that isn't proved stops the crates above it and no others. `rt all check` does the
same, but reads the crates on top over sources before it begins. A line is printed for each crate, with its minutes from start to
end; what the prover said of it stands in crates/NAME/out/check.log. The status is 0 where all are proved.
"""
import os
import subprocess
import sys
import time

sys.dont_write_bytecode = True

import kit


def prove(name):
    """Proves one crate, as a process of its own, and returns the status."""
    rt = kit.load()
    crate = next(it for it in kit.crates(rt) if it.name == name)
    flags = ["--jobs", "1"]
    if crate.is_program:
        return crate.check(flags)
    status = crate.build_rlib(flags, anew=False)
    return status or (crate.check([*flags, "--test"]) if crate.has_tests() else 0)


def started(crate):
    """Starts a crate's proof."""
    os.makedirs(f"{crate.folder}/out", exist_ok=True)
    log = open(f"{crate.folder}/out/check.log", "w", encoding="utf-8")
    words = [sys.executable, os.path.abspath(__file__), "--one", crate.name]
    return subprocess.Popen(words, stdin=subprocess.DEVNULL, stdout=log, stderr=subprocess.STDOUT), time.time()


def main(words):
    if words[:1] == ["--one"]:
        return prove(words[1])
    lanes = os.cpu_count()
    if words[:1] == ["--lanes"]:
        lanes, words = int(words[1]), words[2:]
    if any(it.startswith("-") for it in words):
        sys.exit(__doc__)
    crates = kit.crates(kit.load())
    wanted = [it for it in crates if not words or it.name in words]
    above = {it.name: sum(up.count(b"\n") for up in crates if it in [up, *up.below()]) for it in crates}
    left, running = sorted(wanted, key=lambda it: -above[it.name]), {}
    done, failed = {it.name for it in crates if it not in wanted}, []
    while left or running:
        stopped = [it for it in left if any(below.name in failed for below in it.below())]
        for crate in stopped:
            left.remove(crate)
            failed.append(crate.name)
            print(f"{crate.name}: a crate below it isn't proved", flush=True)
        ready = [it for it in left if all(below.name in done for below in it.below())]
        for crate in ready[: lanes - len(running)]:
            left.remove(crate)
            running[crate.name] = started(crate)
        time.sleep(0.5)
        for name, (process, start) in list(running.items()):
            if process.poll() is not None:
                del running[name]
                well = process.returncode == 0
                done.add(name) if well else failed.append(name)
                print(f"{name}: {'proved' if well else 'NOT PROVED'}, {(time.time() - start) / 60:.1f} minutes", flush=True)
    print(f"not proved: {' '.join(sorted(failed)) or 'none'}")
    return 1 if failed else 0


if __name__ == "__main__":
    sys.exit(main(sys.argv[1:]))
