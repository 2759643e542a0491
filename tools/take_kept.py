#!/usr/bin/env python3
"""Gives this checkout the proved libraries that `rt ci` kept on this machine.

    tools/take_kept.py NAME ..

takes, for the crates that are named, the libraries below them, where what was kept was proved of the same text. After that
`rt check` in the crate's folder, `tools/wrong_bodies.py` and `tools/gate_times.py --functions` begin over them; `rt check` alone
doesn't look there. It prints which libraries weren't kept; those are proved anew.
"""
import os
import shutil
import sys

sys.dont_write_bytecode = True

import kit


def young(crate, top):
    """Returns the folder of a crate's library in the checkout at top, if it is there and younger than all that it is made of, or None."""
    folders = [f"{top}/crates/{it.name}" for it in [crate, *crate.below()]]
    made = f"{folders[0]}/out/rlib/{crate.name}.rlib/format"
    walked = (it for folder in folders for part in ("src", "specs", "proofs") for it in os.walk(f"{folder}/{part}"))
    texts = [f"{top}/crates.txt", *(f"{at}/{name}" for at, _, names in walked for name in names)]
    is_young = os.path.isfile(made) and os.stat(made).st_mtime >= max(os.stat(it).st_mtime for it in texts)
    return f"{folders[0]}/out/rlib" if is_young else None


def take(rt, crate, kept, left):
    """Returns whether the library of a crate stands in its out/ now."""
    os.makedirs(f"{crate.folder}/out", exist_ok=True)
    is_there = crate.is_built()
    if not is_there:
        # What a gate left here may be the kept files by other names. rt would take these for damaged, and drop what is kept.
        shutil.rmtree(f"{crate.folder}/out/rlib", ignore_errors=True)
        is_there = kept.give(crate, False, kept.key(crate))
        from_left = left and not is_there and young(crate, left)
        if from_left:
            shutil.copytree(from_left, f"{crate.folder}/out/rlib")
            is_there = True
    kept.is_built(crate)
    if is_there and not crate.is_program:
        with open(f"{crate.folder}/out/rlib/stamp", "w", encoding="utf-8") as file:
            file.write(crate.stamp())
    return is_there


def take_all(rt, wanted, left=None):
    """Takes the libraries of these names, and returns the names of those that weren't kept.

    Where `left` is a checkout in which `rt ci` ended, what it left there serves in place of what it had no room to keep.
    """
    rt.Crate.allowed = rt.handles_of(os.getcwd())
    order = [it for it in rt.crates_of(os.getcwd()) if it.name in wanted]
    kept = rt.Kept(order)
    return [it.name for it in order if not take(rt, it, kept, left)]


def main(names):
    if not names or names[0].startswith("-"):
        sys.exit(__doc__)
    rt = kit.load()
    if not hasattr(rt, "Kept"):
        sys.exit("this kit keeps nothing between checkouts")
    crates = {it.name: it for it in rt.crates_of(os.getcwd())}
    lacking = take_all(rt, {below.name for name in names for below in crates[name].below()})
    print(f"not kept: {' '.join(lacking) or 'none'}")


if __name__ == "__main__":
    main(sys.argv[1:])
