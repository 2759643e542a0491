#!/usr/bin/env python3
"""Compares the lists 'For a new ..' of docs/MAP.md with the files that such a thing asks for.

    tools/plant_dummy.py [TOP]
    tools/plant_dummy.py --types [KIND ..]

Whoever adds an opcode, a helper (a query or another), a fate, a cause or an option looks for what stands beside it: its neighbour. KINDS names one of each
kind. Each file of code, definitions or proofs that names the neighbour has to stand in the list, in a row of its crate. A line for each
that doesn't is printed, and the status is then 1, else 0. tools/check_documents.py does the same. Comments and tests aren't looked at.

With --types a dummy is planted in the enum of each KIND, in a copy of the crates, and those that tell its forms apart are
typed. Where the compiler wants an arm for it, one is put there, and the crate is typed again. The files that got an arm are printed, and those that
the list lacks. It needs the kit, and takes some minutes for each kind. KIND is opcode, query, helper, fate, cause or option.
"""
import re
import shutil
import subprocess
import sys
import tempfile
from dataclasses import dataclass
from pathlib import Path

sys.dont_write_bytecode = True

import ledger

TOP = Path(__file__).resolve().parent.parent
PAGE = "docs/MAP.md"
NOT_COVERED = re.compile(r"(\S+\.rt):(\d+):(\d+): error\[non-exhaustive-match\]")


@dataclass
class Kind:
    """A kind of thing that is added: its list in docs/MAP.md, the words of the neighbour, and the enum with its file."""

    title: str
    neighbour: tuple
    enum: str
    file: str
    # Crates that together stand on all code that tells the forms of the enum apart.
    above: tuple
    # The crates that may name the neighbour, where it has a common name, and those of the neighbour alone, for which the list
    # has a row without a name of a crate.
    crates: tuple = ()
    own: tuple = ()


KINDS = {
    "opcode": Kind("For a new opcode", ("Negate",), "Instr", "bpf_isa/src/instr.rt", ("bpf_asm", "interp", "verifier", "notes")),
    "query": Kind("For a new helper", ("Mix",), "Query", "helpers/src/helper.rt", ("interp", "ranges", "notes")),
    "helper": Kind(
        "For a new helper",
        ("Report",),
        "Helper",
        "helpers/src/helper.rt",
        ("interp", "ranges", "notes"),
        crates=("helpers", "machine", "ranges", "notes", "interp", "plain", "soundness", "verifier"),
    ),
    "fate": Kind("For a new fate of a unit", ("Tail",), "Fate", "choices/src/fate.rt", ("cases", "losses", "join", "crash_text", "case_text")),
    "cause": Kind("For a new cause of refusal", ("AgainForm",), "VerifierCause", "base/src/causes.rt", ("notes",), own=("bpf_shape",)),
    "option": Kind(
        "For a new option of a command",
        ("cache", "Cache"),
        "OptionPlace",
        "request/src/settings.rt",
        ("notes",),
        crates=("command_line", "request", "commands", "notes"),
    ),
}


def rows(page, title):
    """Returns the lines of a list."""
    return page.partition(f"### {title}")[2].partition("\n### ")[0].split("\n")


def is_listed(lines, crate, name):
    """Returns whether a row of this crate names the file."""
    return any(re.match(rf"\|[^|]*`{crate}`[^|]*\|", row) and re.search(rf"[`/]{re.escape(name)}`", row) for row in lines)


def texts_of(top):
    """Returns the texts of the crates' code, definitions and proofs without comments, by their paths below crates/. Tests are left out."""
    texts = {}
    for crate in ledger.crates(top):
        if crate != "callers":
            for path in sorted((top / "crates" / crate).rglob("*")):
                place = path.relative_to(top / "crates")
                if path.suffix in (".rt", ".antt") and place.parts[1] in ("src", "specs", "proofs"):
                    texts[place] = re.sub(r"(//|--).*", "", path.read_text())
    return texts


def naming(texts, kind):
    """Returns the files that name the neighbour."""
    return [it for it, text in texts.items() if (not kind.crates or it.parts[0] in kind.crates) and any(has_word(text, word) for word in kind.neighbour)]


def has_word(text, word):
    """Returns whether a text has a word by itself. Most texts don't have it at all, which is found sooner."""
    return word in text and bool(re.search(rf"\b{word}\b", text))


def lacking(page, kind, files):
    """Returns what the list lacks of these files."""
    lines = rows(page, kind.title)
    for path in files:
        if path.parts[0] not in kind.own and str(path) != kind.file and not is_listed(lines, path.parts[0], path.name):
            yield f"'{kind.title}' lacks {path}"


def findings(top, page):
    """Returns what the lists of the page lack."""
    texts = texts_of(top)
    for kind in KINDS.values():
        yield from lacking(page, kind, naming(texts, kind))


def with_variant(text, enum):
    """Returns the text of a file with one more form in an enum."""
    body = re.search(rf"pub enum {enum} \{{.*?\n\}}", text, re.S)[0]
    said = '    #[error("a dummy")]\n' if "#[error(" in body else ""
    number = " = 99" if re.search(r" = \d+,", body) else ""
    return text.replace(body, f"{body[:-1]}    /// A dummy.\n{said}    Dummy{number},\n}}", 1)


def with_arm(text, line, column):
    """Returns the text of a file with a last arm in the match that begins at this place."""
    at = sum(len(it) + 1 for it in text.split("\n")[: line - 1]) + column - 1
    depth, at = 0, text.index("{", at)
    for end in range(at, len(text)):
        depth += {"{": 1, "}": -1}.get(text[end], 0)
        if depth == 0:
            return text[:end] + "_ => loop {},\n" + text[end:]
    raise ValueError("a match without an end")


def asked_of_types(top, kind, room):
    """Returns the files in which the compiler wants an arm for a dummy of this kind, and what it says at last of each crate."""
    for name in ("crates", "crates.txt", "tools"):
        (shutil.copytree if (top / name).is_dir() else shutil.copy)(top / name, room / name)
    path = room / "crates" / kind.file
    path.write_text(with_variant(path.read_text(), kind.enum))
    files, left, said = [], list(kind.above), []
    while left:
        words = [sys.executable, str(room / "tools/prove_one.py"), left[0]]
        ran = subprocess.run(words, stdout=subprocess.PIPE, stderr=subprocess.STDOUT, text=True, errors="replace", cwd=room)
        found = NOT_COVERED.search(ran.stdout)
        if found:
            path = room / "crates" / left[0] / found[1]
            path.write_text(with_arm(path.read_text(), int(found[2]), int(found[3])))
            files.append(path.relative_to(room / "crates"))
        else:
            said.append(f"{left.pop(0)}: {ran.stdout.strip().split(chr(10))[-1]}")
    return list(dict.fromkeys(files)), "; ".join(said)


def main(words):
    if words[:1] == ["--types"]:
        unknown = set(words[1:]) - set(KINDS)
        if unknown:
            sys.exit(__doc__)
        failed, page = False, (TOP / PAGE).read_text()
        for name in words[1:] or KINDS:
            with tempfile.TemporaryDirectory(prefix="dummy-") as room:
                files, last = asked_of_types(TOP, KINDS[name], Path(room))
            print(f"{name}: {', '.join(map(str, files)) or 'no file'}; at last: {last}")
            for it in lacking(page, KINDS[name], files):
                failed = True
                print(it)
        return failed
    if words and words[0].startswith("-"):
        sys.exit(__doc__)
    top = Path(words[0]).resolve() if words else TOP
    found = list(findings(top, (top / PAGE).read_text()))
    for it in found:
        print(it)
    return bool(found)


if __name__ == "__main__":
    sys.exit(main(sys.argv[1:]))
