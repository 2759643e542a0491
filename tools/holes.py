"""A copy of a crate in which holes stand in place of the proofs of functions.

A check with `--allow-holes` takes a function whose proof is a hole by its contract. So a function is checked without the proofs of
what it calls, and with each of its own goals. Such a check gives no verdict: it can only tell that a goal isn't proved.
"""
import copy
import os
import shutil

# What a function's answers and invariants stand in. Beside a whole proof they have no place.
PARTS = ("Answers.antt", "Invariants.antt")
PROOF = """use Rattle.{crate}.proofs.{path}.Statement.{{statement}}

pub {name}_spec : {{M : Type 1}} → statement M
{name}_spec = ?
"""


def put_hole(crate, parts, folder):
    """Puts a hole in place of the proof of the function of this path, below the crate's folder of proofs."""
    at = "/".join([folder, *parts])
    os.makedirs(at, exist_ok=True)
    for name in PARTS:
        if os.path.isfile(f"{at}/{name}"):
            os.remove(f"{at}/{name}")
    with open(f"{at}/Proof.antt", "w", encoding="utf-8") as file:
        file.write(PROOF.format(crate=crate, path=".".join(parts), name=parts[-1]))


def hollow(rt, crate, paths, to):
    """Copies a crate into the folder `to`, with holes for the proofs of the functions of these paths, and returns it as it stands there.

    A function whose proof is one by hand keeps it. One of a cycle of calls isn't to be among them: its proof stands elsewhere.
    """
    for part in rt.rtlib.PARTS:
        if os.path.isdir(f"{crate.folder}/{part}"):
            shutil.copytree(f"{crate.folder}/{part}", f"{to}/{part}")
    for parts in paths:
        if not os.path.isfile("/".join([to, "proofs", *parts, "Proof.antt"])):
            put_hole(crate.name, parts, f"{to}/proofs")
    made = copy.copy(crate)
    made.folder = to
    return made
