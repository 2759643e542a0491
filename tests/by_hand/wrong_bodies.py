#!/usr/bin/env python3
"""Tests tools/wrong_bodies.py on a small repository of its own: which edits it says are refused, and which aren't.

    python3 tests/by_hand/wrong_bodies.py

It needs the kit's prover, and some two minutes. Run by hand when the tool or the kit changes. Prints a line for each edit of
which the tool says another thing than it should, and last `N passed, M failed`.
"""
import subprocess
import sys
import tempfile
from pathlib import Path

sys.dont_write_bytecode = True

import rooms

rooms.enter()

import wrong_bodies
from notation import TOP

FILES = {
    "crates.txt": "low:\nhigh: low\n",
    "HANDLES": "Handles allowed: none.\n",
    "crates/low/src/lib.rt": """//! Numbers twice.
#![tactic(auto)]

ghost use Rattle.std.specs.Prelude.{◌≡◌, ◌+◌, ◌<◌};
ghost use Rattle.low.specs.Doubles.{double, triple};

mod laws;

pub use laws::twice_three;

/// What is added.
const MORE: u32 = 1;

/// A number twice.
pub fn twice(n: u32) -> u32
    requires { n < 1000 }
    ensures { result ≡ double n }
{
    n + n
}

/// A number four times.
pub fn four_times(n: u32) -> u32
    requires { n < 400 }
    ensures { result ≡ double (double n) }
{
    twice(twice(n))
}

/// The number after another.
pub fn next(n: u32) -> u32
    requires { n < 1000 }
    ensures { result ≡ n + 1 }
{
    n + MORE
}

/// A number three times.
pub fn three_times(n: u32) -> u32
    requires { n < 1000 }
    ensures { result ≡ triple n }
{
    3 * n
}

/// Some number.
pub fn some(n: u32) -> u32
{
    n / 2
}

/// The least of two numbers.
pub fn least(n: u32, m: u32) -> u32
    ensures { result ≡ (if nat_le n m then n else m) }
{
    if n <= m { n } else { m }
}
""".replace("◌<◌}", "◌<◌, if◌then◌else◌, nat_le}"),
    "crates/low/src/laws.rt": """//! What holds of numbers twice.

ghost use Rattle.std.specs.Prelude.{◌≡◌};
ghost use Rattle.low.specs.Doubles.{double};

/// Three twice is six. Does nothing.
#[tactic(auto, unfolding(crate::specs::Doubles::double))]
pub fn twice_three()
    ensures { double 3 ≡ 6 }
{
}
""",
    "crates/low/specs/Lib.antt": "pub mod Doubles\n",
    "crates/low/specs/Doubles.antt": """use Rattle.std.specs.Prelude.{ℕ, ◌+◌, ◌*◌}

-- a number twice
abbrev pub double : ℕ → ℕ
double n = n + n

-- a number three times
abbrev pub triple : ℕ → ℕ
triple n = 3 * n
""",
    "crates/high/src/lib.rt": """//! A number above.
#![tactic(auto)]

ghost use Rattle.std.specs.Prelude.{◌≡◌, ◌+◌};
ghost use Rattle.low.specs.Doubles.{double};

mod laws;

pub use laws::three_times_three;

/// Ten twice.
pub fn twenty() -> u32
    ensures { result ≡ double 10 }
{
    low::twice(10)
}
""",
    "crates/high/src/laws.rt": """//! What holds of numbers three times.

ghost use Rattle.std.specs.Prelude.{◌≡◌};
ghost use Rattle.low.specs.Doubles.{triple};

/// Three times three is nine. Does nothing.
#[tactic(auto)]
pub fn three_times_three()
    ensures { triple 3 ≡ 9 }
{
}
""",
}

LIB, DEFINED = "src/lib.rt", "specs/Doubles.antt"
# An edit of code whose law stands in the crate above.
ABOVE = "# law: crates/high/src/laws.rt"
TRIPLED = [f"file: {LIB}", "old: 3 * n", "new: 3 * n + 1"]

# The edits: what the tool is to say of each, the words that are to stand in the line, and its lines.
EDITS = {
    "low/adds_one": ("refused", "src/lib.rt:15", [f"file: {LIB}", "old: n + n", "new: n + n + 1"]),
    "low/constant": ("refused", "src/lib.rt:", [f"file: {LIB}", "old: MORE: u32 = 1", "new: MORE: u32 = 2"]),
    "low/most": ("refused", "src/lib.rt:", [f"file: {LIB}", "old: if n <= m {", "new: if n >= m {"]),
    "low/means_the_same": ("not refused", "still proved", [f"file: {LIB}", "old: if n <= m {", "new: if (n <= m) {"]),
    "low/no_clause": ("not refused", "still proved", [f"file: {LIB}", "old: n / 2", "new: n / 3"]),
    "low/contract": ("bad edit", "contract", [f"file: {LIB}", "old: ensures { result ≡ double n }", "new: ensures { result ≡ double n + 1 }"]),
    "low/cast": ("not refused", "a cast or an overflow", [f"file: {LIB}", "old: n / 2", "new: (n + 1) / 2"]),
    "low/syntax": ("bad edit", "", [f"file: {LIB}", "old: twice(twice(n))", "new: twice(twice(n)"]),
    "low/unknown": ("bad edit", "", [f"file: {LIB}", "old: twice(twice(n))", "new: twice(twice(m))"]),
    "low/absent": ("bad edit", "0 times", [f"file: {LIB}", "old: thrice(n)", "new: n"]),
    "low/comment": ("bad edit", "no function", [f"file: {LIB}", "old: //! Numbers twice.", "new: //! Numbers."]),
    "low/two_files": ("refused", "src/lib.rt:", [f"file: {LIB}", "old: n + MORE", "new: n + MORE + 1", "file: src/laws.rt", "old: pub fn twice_three()", "new: pub fn twice_three ()"]),
    "low/both_alike": ("refused", "src/laws.rt:", ["# law: src/laws.rt", f"file: {LIB}", "old: n + n", "new: n + n + 1", f"file: {DEFINED}", "old: double n = n + n", "new: double n = n + n + 1"]),
    "low/another_law": ("refused elsewhere", "src/laws.rt:", ["# law: src/lib.rt", f"file: {LIB}", "old: n + n", "new: n + n + 1", f"file: {DEFINED}", "old: double n = n + n", "new: double n = n + n + 1"]),
    "low/both_without_law": ("bad edit", "law", [f"file: {LIB}", "old: n + n", "new: n + n + 1", f"file: {DEFINED}", "old: double n = n + n", "new: double n = n + n + 1"]),
    "low/law_by_name": ("refused", "src/laws.rt:", ["# law: src/laws.rt laws::twice_three", f"file: {LIB}", "old: n + n", "new: n + n + 1", f"file: {DEFINED}", "old: double n = n + n", "new: double n = n + n + 1"]),
    "low/law_above": ("refused", "crates/high/src/laws.rt:", [ABOVE, *TRIPLED, f"file: {DEFINED}", "old: triple n = 3 * n", "new: triple n = 3 * n + 1"]),
    "low/law_above_holds": ("not refused", "crates/high is still proved", [ABOVE, f"file: {LIB}", "old: 3 * n", "new: n * 3", f"file: {DEFINED}", "old: triple n = 3 * n", "new: triple n = n * 3"]),
    "low/lower_crate_refuses": ("refused elsewhere", "crates/low", [ABOVE, f"file: {LIB}", "old: 3 * n", "new: 3 * n + 2", f"file: {DEFINED}", "old: triple n = 3 * n", "new: triple n = 3 * n + 1"]),
    "low/two_crates_below_none": ("bad edit", "stand on", [ABOVE, "file: crates/high/src/lib.rt", "old: low::twice(10)", "new: low::twice(11)", *TRIPLED]),
    "low/no_such_law": ("bad edit", "# law: crates", ["# law: crates/high/src/none.rt", *TRIPLED, f"file: {DEFINED}", "old: triple n = 3 * n", "new: triple n = 3 * n + 1"]),
    "low/law_above_of_code_alone": ("bad edit", "both code and a definition", [ABOVE, *TRIPLED]),
    "high/eleven": ("refused", "src/lib.rt:", [f"file: {LIB}", "old: low::twice(10)", "new: low::twice(11)"]),
}

# Lines of a check of an edit of lines 10 to 20 of src/lib.rt: whether they refuse it.
SAID = [
    ("note: src/lib.rt:12:5: it is not proved that what the function ensures holds when it returns (`returns-clause`)", True),
    ("./proofs/f/Answers.antt:3:5: error: `returns`: `omega`: the goal does not follow from what it read", True),
    ("./proofs/f/Answers.antt:3:5: error: `returns`: the record has no field `add`", False),
    ("./proofs/f/Answers.antt:3:5: error: `c.add` is not in scope", False),
    ("./proofs/g/Answers.antt:3:5: error: `returns`: `omega`: the goal does not follow from what it read", False),
    ("./proofs/f/Answers.antt:3:5: error: `returns`: antt ran out of the steps that the check of one declaration may take", False),
    ("note: src/lib.rt:12:5: it is not proved that the value fits the type that it is cast to (`overflow_cast-result`)", False),
    ("./proofs/f/Answers.antt:3:5: error: `overflow_add`: `omega`: the goal does not follow from what it read", False),
    ("fn low::f: no proof: expected answers in ./proofs/f/Answers.antt; `search` did not prove `overflow_cast-result`", False),
    ("fn low::f: no proof: expected answers in ./proofs/f/Answers.antt; `search` did not prove `overflow_add`, `returns-clause`", True),
    ("fn low::g: no proof: expected answers in ./proofs/g/Answers.antt; `search` did not prove `returns-clause`", False),
    ("fn low::f: not proved", False),
    (
        "./proofs/f/Answers.antt:3:5: error: `returns`: record `Then` has no field `from`\n"
        "note: src/lib.rt:12:5: it is not proved that what the function ensures holds when it returns (`returns-clause`)",
        False,
    ),
    (
        "./proofs/f/Answers.antt:3:5: error: `returns-then`: record `Then` has no field `from`\n"
        "./proofs/f/Answers.antt:9:5: error: `returns-else`: `omega`: the goal does not follow from what it read",
        True,
    ),
    ("note: src/lib.rt:12:5: it is not proved that the index is below the array's length (`index`)", True),
    ("note: src/lib.rt:22:5: it is not proved that what the function ensures holds when it returns (`returns-clause`)", False),
    ("src/lib.rt:12:5: error[unknown-name]: nothing has the name m", False),
    ("src/lib.rt:12:5: warning: an import that nothing uses", False),
]


def says(top, *words):
    """Runs the tool, and returns what it says of each edit, and its last line."""
    ran = subprocess.run([sys.executable, TOP / "tools/wrong_bodies.py", *words], cwd=top, stdout=subprocess.PIPE, text=True)
    lines = ran.stdout.rstrip("\n").split("\n")
    print(f"$ wrong_bodies.py {' '.join(words)}\n{ran.stdout}", file=sys.stderr, flush=True)
    return {line.split(": ")[0]: line.split(": ", 2)[1:] for line in lines if "/" in line.split(": ")[0]}, lines[-1], ran.returncode


def as_list(labels):
    """Returns the text of a list that names these edits."""
    crates = dict.fromkeys(label.split("/")[0] for label in labels)
    groups = ([f"{crate}:"] + [f"    {it.split('/')[1]}: what it guards" for it in labels if it.startswith(f"{crate}/")] for crate in crates)
    return "".join("\n".join(lines) + "\n" for lines in groups)


def written(top):
    """Writes the repository, and a list of all its edits and one of those that are to be refused."""
    (top / ".git").mkdir()
    texts = {f"crates/{label.replace('/', '/wrong/')}.edit": "\n".join(lines) + "\n" for label, (_, _, lines) in EDITS.items()}
    texts["all.txt"] = "# all\n" + as_list(EDITS)
    texts["good.txt"] = as_list([label for label, (result, _, _) in EDITS.items() if result == "refused"])
    texts["lost.txt"] = as_list(["low/adds_one", "low/nothing"])
    for path, text in {**FILES, **texts}.items():
        (top / path).parent.mkdir(parents=True, exist_ok=True)
        (top / path).write_text(text)


def lines_told():
    """Returns the lines of SAID of which the tool thinks otherwise."""
    function = wrong_bodies.Function("src/lib.rt", "f", "", "", 10, 20)
    edit = wrong_bodies.Edit.__new__(wrong_bodies.Edit)
    edit.functions, edit.law = [function], None
    return [lines for lines, refuses in SAID if bool(edit.refusal(lines.split("\n"))[0]) != refuses]


def main():
    failures = lines_told()
    count = len(SAID)
    refused = sum(result == "refused" for result, _, _ in EDITS.values())
    with tempfile.TemporaryDirectory(prefix="wrong-bodies-") as room:
        top = Path(room)
        written(top)
        for words, names in ((["--listed", "all.txt", "--lanes", "2"], EDITS), ([], EDITS)):
            said, last, status = says(top, *words)
            for label in names:
                result, why, _ = EDITS[label]
                found = said.get(label, ["nothing", ""])
                if found[0] != result or why not in found[-1]:
                    failures.append(f"{' '.join(words)} {label}: {': '.join(found)}, and not {result}: {why}")
            count += len(names) + 1
            if last != f"{refused} refused, {len(EDITS) - refused} not" or status != 1:
                failures.append(f"{' '.join(words)}: {last}, status {status}")
        for words, last, status in ((["--listed", "good.txt"], f"{refused} refused, 0 not", 0), (["--listed", "lost.txt"], "0 refused, 1 not", 1)):
            found = says(top, *words)[1:]
            count += 1
            if found != (last, status):
                failures.append(f"{' '.join(words)}: {found}")
    for it in failures:
        print(it)
    print(f"{count - len(failures)} passed, {len(failures)} failed")
    return 1 if failures else 0


if __name__ == "__main__":
    sys.exit(main())
