#!/usr/bin/env python3
"""Types the examples on the crates' pages, without proving them, and wants one of each library.

    tests/gate/pages.py [NAME ..]

takes the blocks between ``` and ``` out of the page of each crate, or of those that are named: the lines `//!` at the head of its
src/lib.rt. Each block becomes the body of a function of one scratch crate, whose lines have the numbers that they have on the page.
What an example is given by name has one type on all pages (GIVEN). A block that begins with ```text is no code: each library has an
example that is, but for a few (TEXT_WILL_DO). The scratch crate stands on the libraries that are built here or were kept of this
text, or on the sources where some are neither. The last line is `N passed, M failed`, and counts pages.
"""
import os
import re
import subprocess
import sys
import tempfile

sys.dont_write_bytecode = True

import rooms

rooms.enter()

import kit
import take_kept

# The libraries whose example may be text.
TEXT_WILL_DO = ("machine", "soundness", "run_jobs", "cases")
# The names that an example may use without a `let`, with their types.
GIVEN = {
    "rt": "&R",
    "alloc": "Global",
    "bytes": "&[u8]",
    "raw": "&[u8]",
    "log": "logfmt::Log",
    "plan": "epochs::Plan<'a>",
    "starts": "choices::Starts<'a>",
    "history": "images::History<'a>",
    "choice": "choices::Choice",
    "view": "images::View<'a>",
    "program": "bpf_isa::program::Program",
    "programs": "&[Vec<u8>]",
    "verified": "verifier::Verified<'a>",
    "checkers": "&[checker::Checker<'a>]",
    "context": "helpers::Context",
    "device": "helpers::Filled",
    "options": "request::Options",
    "recording": "request::facts::Recording<'a>",
    "facts": "request::facts::RunFacts",
    "words": "command_line::Words",
    "head": "report::Head",
    "lines": "report::lines::Lines",
    "args": "&[String]",
    "files": "&[Option<Vec<u8>>]",
    "refusal": "base::refusal::Refusal",
    "other": "bpf_isa::program::Program",
    "add": "&bpf_isa::instr::Instr",
    "jump": "&bpf_isa::instr::Instr",
    "choices": "&[arrayvec::ArrayVec<u32, 3>]",
    "found": "&[losses::found::CutFound]",
    "torn": "&[arrayvec::ArrayVec<u32, 3>]",
    "blocks": "Vec<Vec<explore_core::Job>>",
    "whole": "images::View<'a>",
    "gate": "crate::Silent",
}
# The refusals that an example may pass on by `?`.
REFUSALS = (
    "std::alloc::AllocError",
    "clap::Error",
    "base::refusal::Refusal",
    "base::causes::VerifierCause",
    "logfmt::LogFault",
    "case_runs::SearchFault",
    "choices::TooMany",
    "bpf_isa::program::CodeFault",
    "bpf_asm::fault::AsmFault",
    "bpf_shape::Fault",
)
# A list that couldn't grow gives back what was to be pushed.
GROWTH = """
impl<T: Drop> From<std::alloc::AllocFailed<T>> for Refused {
    fn from(_: std::alloc::AllocFailed<T>) -> Refused {
        Refused
    }
}
"""
# A gate that does nothing where it is told of a case.
GATE = """
#[derive(Clone, Copy)]
pub struct Silent;

impl case_runs::CaseGate for Silent {
    fn run(&self) {}

    fn case(&self) {}
}
"""
HEAD = "pub fn example_{number}<'a, R: Files + AllocGlobal + Print + Threads + Wait + Sync>({given}) -> Result<(), Refused> {{"
USES = "use crate::Refused; use std::alloc::Global; use std::rt::Files; use std::sync::Wait; use std::thread::Threads;"
USE = re.compile(r"^use [^;]*;", re.M)


def page_of(crate):
    """Returns the lines of a crate's page, without what marks them as comments."""
    with open(f"{crate.folder}/src/lib.rt", encoding="utf-8") as file:
        lines = file.read().split("\n")
    end = next(at for at, line in enumerate(lines) if not line.startswith("//!"))
    return [line[4:] for line in lines[:end]]


def blocks_of(page):
    """Returns the blocks of code, each as the number of its first line and its text."""
    fences = [at for at, line in enumerate(page) if line.startswith("```")]
    pairs = zip(fences[::2], fences[1::2])
    return [(start + 1, "\n".join(page[start + 1 : end])) for start, end in pairs if page[start] != "```text"]


def given_to(body):
    """Returns the parameters of an example: the names of GIVEN that it uses before it has one of its own."""
    code = re.sub(r"//.*|\"(\\.|[^\"\\])*\"", "", body)
    firsts = {}
    for found in re.finditer(r"(let (mut )?)?(?<![.:\w])([a-z_]+)\b(?!::)", code):
        firsts.setdefault(found[3], found[1])
    return ", ".join(f"mut {name}: {its_type}" for name, its_type in GIVEN.items() if firsts.get(name, "own") is None)


def module_of(blocks):
    """Returns the module of a page's blocks. Each line of a block stands in the line that it has on the page."""
    lines, known = [""], USES.split("; ")
    for number, (at, code) in enumerate(blocks):
        lines += [""] * (at - len(lines))
        uses = [it for it in (" ".join(it.split()) for it in USE.findall(code)) if it not in known]
        known += uses
        body = USE.sub(lambda found: "\n" * found[0].count("\n"), code)
        lines[at - 1] += " ".join(uses) + " " + HEAD.format(number=number, given=given_to(body))
        lines += [*body.split("\n"), "Ok(()) }"]
    lines[0] += USES
    return "\n".join(lines) + "\n"


def root_of(names, libraries):
    """Returns the root of the scratch crate over these libraries: a refusal that all others become, and the modules."""
    there = {"std", *(it.name for it in libraries), *(name for it in libraries for name in it.of_kit)}
    known = [it for it in REFUSALS if it.split("::")[0] in there]
    refusals = "".join(f"\nimpl From<{it}> for Refused {{\n    fn from(_: {it}) -> Refused {{\n        Refused\n    }}\n}}\n" for it in known)
    modules = "\n".join(f"pub mod page_{it};" for it in names)
    gate = GATE if "case_runs" in there else ""
    return f"#![tactic(auto)]\n\n{modules}\n\npub struct Refused;\n{refusals}{GROWTH}{gate}"


def needed(libraries, modules):
    """Returns the libraries that the modules name, with those below them."""
    text = "\n".join(modules.values())
    named = [it for it in libraries if re.search(rf"\b{it.name}::", text)]
    return [it for it in libraries if it in named or any(it in above.below() for above in named)]


def words_over(rt, libraries):
    """Returns the words of a check over these libraries: built ones, or the sources of all where one isn't built."""
    of_kit = {"core", "std", *(name for it in libraries for name in it.of_kit)}
    there = f"{rt.rtlib.KIT}/rlibs"
    words = [word for it in sorted(of_kit) for word in ("--extern", f"{it}={there}/{it}.rlib")] + ["-L", f"dependency={there}"]
    if all(it.is_built() for it in libraries):
        for it in libraries:
            words += ["--extern", f"{it.name}={it.rlib}", "-L", f"dependency={os.path.dirname(it.rlib)}"]
    else:
        for it in libraries:
            uses = dict.fromkeys(["core", *it.of_kit, *(dep.name for dep in it.deps)])
            words += ["--lib", f"{it.name}:{','.join(uses)}={it.folder}/src/lib.rt"]
    return [*words, "--antt-project", f"{rt.rtlib.KIT}/rattle/logic/antt-project.json", "--logic-built", f"{rt.rtlib.KIT}/logic_built"]


def type_all(rt, libraries, modules):
    """Types the modules as one crate, and returns what the compiler says."""
    over = needed(libraries, modules)
    if hasattr(rt, "Kept"):
        take_kept.take_all(rt, {it.name for it in over})
    with tempfile.TemporaryDirectory(prefix="pages-") as room:
        os.mkdir(f"{room}/src")
        for name, text in [("lib", root_of(modules, over)), *((f"page_{name}", text) for name, text in modules.items())]:
            with open(f"{room}/src/{name}.rt", "w", encoding="utf-8") as file:
                file.write(text)
        # No function has this name, so the check ends after types and before any proof.
        words = ["check", "--crate-name", "pages", "src/lib.rt", *words_over(rt, over), "--jobs", "1", "--start", "no function"]
        ran = subprocess.run([rt.rtlib.RATTLE, *words], cwd=room, stdout=subprocess.PIPE, stderr=subprocess.STDOUT, text=True, errors="replace")
        return ran.stdout.replace(f"{room}/", "")


def main(names):
    if names and names[0].startswith("-"):
        sys.exit(__doc__)
    rt = kit.load()
    libraries = [it for it in kit.crates(rt) if not it.is_program and not it.name.endswith("_tests")]
    wanted = [it for it in libraries if not names or it.name in names]
    asked = sorted(it.name for it in wanted)
    pages = {it.name: page_of(it) for it in wanted}
    blocks = {name: blocks_of(page) for name, page in pages.items()}
    modules = {name: module_of(blocks[name]) for name in asked if blocks[name]}
    said = type_all(rt, libraries, modules)
    failed = {name for name in asked if not blocks[name] and not (name in TEXT_WILL_DO and "```text" in pages[name])}
    for name in sorted(failed):
        print(f"crates/{name}/src/lib.rt: its page has no example")
    is_typed = "has no function `no function`" in said
    at_fault = set()
    for line in said.splitlines():
        found = re.search(r"src/page_(\w+)\.rt:(\d+:\d+: error.*)", line)
        if found:
            at_fault.add(found[1])
            print(f"crates/{found[1]}/src/lib.rt:{found[2]}")
        elif not is_typed and not line.startswith("by-macro:"):
            print(line)
    failed |= at_fault if is_typed or at_fault else set(asked)
    print(f"{len(asked) - len(failed)} passed, {len(failed)} failed")
    return 1 if failed else 0


if __name__ == "__main__":
    sys.exit(main(sys.argv[1:]))
