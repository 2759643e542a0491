#!/usr/bin/env python3
"""Tests tools/check_documents.py: what it finds of names that aren't there, and what it lets pass; which definitions
tools/statement.py follows; which lists of edits tools/wrong_bodies.py reads; and which calls tools/callers.py finds to have no caller.

    python3 tests/gate/documents.py

It needs Python alone. Prints a line for each test that failed, and last `N passed, M failed`.
"""
import sys
import tempfile
from pathlib import Path

sys.dont_write_bytecode = True

import rooms

rooms.enter()

import callers
import plant_dummy
from check_documents import Repository, strays, unknown_places, unknown_sections, unlisted
from notation import TOP
from statement import Sources, followed
from wrong_bodies import listed_in

# A word that no file has: not even this one, in one piece.
LOST = "never_" + "heard"

# A document, its lines, and what is to be found in them.
ROWS = [
    ("docs/MAP.md", ["`tools/kit.py`, `plain/src/state.rt`, `specs/Step.antt`, `two_slots/wrong`, `/dev/sda`, `crates/NAME/wrong/`"], []),
    ("docs/MAP.md", ["`tools/kit.rs`"], ["no file tools/kit.rs"]),
    ("docs/MAP.md", ["`plain/src/staying.rt` and `specs/Stepping.antt`"], ["no file plain/src/staying.rt", "no file specs/Stepping.antt"]),
    ("docs/PROVING.md", ["## shares", "`proofs/Moves.antt`"], []),
    ("docs/PROVING.md", ["## workers", "`proofs/Moves.antt`"], ["no file proofs/Moves.antt"]),
    ("docs/PROVING.md", ["## Texts: losses and shares", "`proofs/Moves.antt`"], []),
    ("docs/PROVING.md", ["## workers", "what `shares` has in `proofs/Moves.antt`"], []),
    ("docs/MAP.md", ["`frames.rt` stands in some crate"], []),
    ("docs/MAP.md", ["`framing.rt`"], ["no file framing.rt"]),
    ("docs/MAP.md", ["| `interp` | `frames.rt` |", "| `interp`, `plain` | `frames.rt` |"], []),
    ("docs/MAP.md", ["| `plain` | `frames.rt` |"], ["no file frames.rt in plain"]),
    ("docs/MAP.md", ["`put_known`, `Board::draw`, `slice_get-append_left`, `put(..)`, `--option_x`, `F-requires-clause-NAME`"], []),
    ("docs/MAP.md", [f"`{LOST}`"], [f"nothing has the name {LOST} of {LOST}"]),
    ("docs/MAP.md", [f"`Board::{LOST}`"], [f"nothing has the name {LOST} of Board::{LOST}"]),
    ("docs/MAP.md", [f"`{LOST}(..)`"], [f"nothing has the name {LOST} of {LOST}(..)"]),
    ("docs/MAP.md", ["`put_known` in `known.rt`, `put_known` of `notes`, `known.rt` of `notes`"], []),
    ("docs/MAP.md", ["`put_known` in `listing.rt`"], ["listing.rt doesn't have put_known of put_known"]),
    ("docs/MAP.md", ["`known.rt` of `interp`"], ["no file known.rt in interp"]),
    ("docs/PROVING.md", ["## commands", "`decode_all` in `commands/proofs`"], ["commands/proofs doesn't have decode_all of decode_all"]),
]


# A definition, and what is to be among those that it leads to, and what isn't.
LEADS = [
    (("images.specs.Images", "crash_image"), {"byte_after", "survives", "keeps", "initial_byte", "unit_content"}, {"context_at", "failing_lines"}),
    (("runs.specs.Explore", "IsReport"), {"line_text", "LogText", "IsSpelledBy"}, {"IsPageOf", "IsVerified", "HasNoFault"}),
    (("runs.specs.Explore", "IsReportOfRun"), {"line_text", "LogText", "IsSpelledBy", "step", "crash_image"}, {"IsPageOf", "IsGood", "HasNoFault"}),
    (("machine.specs.Outcome", "outcome"), {"step", "checks", "arithmetic"}, {"guarded_outcome"}),
    (("verifier.specs.Verdicts", "IsAccepted"), set(), {"IsGood", "rules"}),
]


# A file of the list of a kind, and the path that the list then lacks.
NEIGHBOURS = [
    ("opcode", "`Names.antt`", "bpf_asm/proofs/Names.antt"),
    ("helper", "`proofs/Calls.antt`", "soundness/proofs/Calls.antt"),
    ("fate", "`Numbered.antt`", "cases/proofs/Numbered.antt"),
    ("cause", "`cures.rt`", "notes/src/cures.rt"),
    ("option", "`RunOf.antt`", "commands/proofs/RunOf.antt"),
]
# An enum with a match on it, and what becomes of both.
ENUM = "pub enum Kind {\n    One,\n}\n"
MATCH = "    match kind {\n        Kind::One => 1,\n    }\n"
PLANTED = """pub enum Kind {
    One,
    /// A dummy.
    Dummy,
}
    match kind {
        Kind::One => 1,
    _ => loop {},
}
"""


# A list of edits, and the edits that it names with their promises, or the number of the line in which it has another form.
LISTS = [
    ("# all\n\nlow:\n    one: it holds\n\tother: so does: that\n\nhigh:\n    one: it holds too\n", {"low/one": "it holds", "low/other": "so does: that", "high/one": "it holds too"}),
    ("", {}),
    ("low/one\n", 1),
    ("low:\n    one\n", 2),
    ("low:\n    one:\n", 2),
    ("low:\n    one two: it holds\n", 2),
    ("low: it holds\n", 1),
    ("    one: it holds\n", 1),
    ("low:\n    one: it holds\n    one: once more\n", 3),
    ("low:\n    one: it holds\nhigh:\n    one: it holds\nlow:\n    other: it holds\n", 5),
]


def read_list(text):
    """Returns what a list of edits names, or the number of the line in which it has another form."""
    with tempfile.NamedTemporaryFile("w", encoding="utf-8", suffix=".txt") as file:
        file.write(text)
        file.flush()
        try:
            return listed_in(file.name)
        except ValueError as error:
            return int(str(error).removeprefix(f"{file.name}:").partition(":")[0])


# A crate with calls that a test makes, one of which requires nothing, and a caller of the other.
LOW = """pub fn asks(n: u32) -> u32
    requires { n < 10 }
{
    n
}

pub fn takes_all(n: u32) -> u32
    ensures { result ≡ n }
{
    // asks(n) would do too
    n
}
"""
CALLER = "pub fn caller() -> u32 {\n    low::asks(1)\n}\n"
REQUIRING = "pub fn caller()\n    requires { asks(1) ≡ 1 }\n{\n}\n"
LONELY = "low: asks has a requires, and only tests call it: give it a caller in the crate callers"


def lonely(high):
    """Returns which calls are found to have no caller, where another crate has this text."""
    with tempfile.TemporaryDirectory(prefix="callers-") as folder:
        files = {
            "crates.txt": "low:\nhigh: low\n",
            "crates/low/src/lib.rt": LOW,
            "crates/high/src/lib.rt": high,
            "tests/crates/own/src/lib.rt.txt": "fn test() {\n    low::asks(low::takes_all(2));\n}\n",
        }
        for name, text in files.items():
            Path(folder, name).parent.mkdir(parents=True, exist_ok=True)
            Path(folder, name).write_text(text)
        return list(callers.findings(Path(folder)))


def leads(sources, module, name):
    """Returns the names of the definitions to which one leads."""
    found = set()
    followed(found, [sources.known[module][name]])
    return {getattr(it, "name", it) for it in found}


def main():
    repository, failed, page = Repository(TOP), 0, (TOP / "docs/MAP.md").read_text()
    tests = [(lines, [it for _, it in strays(repository, TOP / document, lines)], wanted) for document, lines, wanted in ROWS]
    tests.append((["the lists of MAP.md"], list(unlisted(repository, page)), []))
    lost = page.replace("`proofs/LooseSteps.antt`", "it")
    tests.append((["the lists without a file"], list(unlisted(repository, lost)), ["'For a new opcode' lacks soundness/proofs/LooseSteps.antt"]))
    line = "MACHINE.md, 'Footprint', VERIFIER.md, 'Good tables' and CRASH-MODEL.md, 'What a clean report doesn't say'"
    tests.append(([line], list(unknown_sections(TOP, line)), ["VERIFIER.md has no section 'Good tables'"]))
    texts = plant_dummy.texts_of(TOP)
    for name, file, path in NEIGHBOURS:
        kind = plant_dummy.KINDS[name]
        named = plant_dummy.naming(texts, kind)
        found = [list(plant_dummy.lacking(it, kind, named)) for it in (page, page.replace(file, "it"))]
        tests.append(([f"the list for a new {name}, and without {file}"], found, [[], [f"'{kind.title}' lacks {path}"]]))
    asked = plant_dummy.with_arm(plant_dummy.with_variant(ENUM, "Kind") + MATCH, 6, 5)
    tests.append((["a dummy with its arm"], [asked], [PLANTED]))
    named = "docs/MACHINE" + ".md,"
    text = f"/// As {named} Helpers says,\n/// and {named} State and\n/// start, but not {named} Good helpers.\n"
    tests.append(([text], list(unknown_places(TOP, text)), [(3, "MACHINE.md has no section 'Good helpers. ..'")]))
    sources = Sources(TOP)
    for start, wanted, unwanted in LEADS:
        found = leads(sources, *start)
        tests.append(([".".join(start)], sorted(wanted - found | unwanted & found), []))
    tests += [([text], read_list(text), wanted) for text, wanted in LISTS]
    tests += [([text], lonely(text), wanted) for text, wanted in ((CALLER, []), (REQUIRING, [LONELY]), ("", [LONELY]))]
    for lines, found, wanted in tests:
        if found != wanted:
            failed += 1
            print(f"{' / '.join(lines)}: {found}, and not {wanted}")
    print(f"{len(tests) - failed} passed, {failed} failed")
    return 1 if failed else 0


if __name__ == "__main__":
    sys.exit(main())
