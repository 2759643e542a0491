#!/usr/bin/env python3
"""Writes docs/STATEMENT.md: what has to be believed for each promise of README.md, from the crates' sources.

    tools/statement.py
    tools/statement.py --check [TOP]

PROMISES has each promise of README.md, 'What is proved', with the calls and clauses that carry it. The definitions are those of
specs/ that these clauses name, those that these name, and so on, whole and with their comments. They stand by crate and file, in
the order of crates.txt and of each crate's specs/Lib.antt, so that each mostly stands after those that it names. What the
standard library or the code itself has is named with its place. LEFT_OUT says of which definitions a mistake wouldn't make a
promise untrue: these are named there and not followed. Last are all files of definitions to which those of ROOTS lead by their
`use` lines: on these rests what docs/PROVED.md says.

With --check it compares the document with the sources, and prints a line for each finding; the status is then 1, else 0.
tools/check_documents.py does the same.
"""
import itertools
import re
import sys
import textwrap
from pathlib import Path

sys.dont_write_bytecode = True

import ledger
import plain_words

TOP = Path(__file__).resolve().parent.parent
PAGE = "docs/STATEMENT.md"
# Each promise in README's words, and what carries it: crate, call, and clause, or none where it has one without a name.
PROMISES = [
    (
        "The report lists every failing image asked for, with `--bound any` every loss, and no other.",
        [
            ("runs", "explore_with", "report"),
            ("runs", "explore_with", "run"),
            ("workers", "lines_are_set", ""),
            ("case_runs", "losses_are_found", ""),
            ("case_runs", "their_images_fail", ""),
            ("case_runs", "found_cuts_are_wanted", ""),
            ("runs", "run_with", "told"),
        ],
    ),
    (
        "The images are those of the crash model, each once, with exact bytes.",
        [
            ("epochs", "cuts_are_set", ""),
            ("epochs", "volatile_is_set", ""),
            ("choices", "ranked_is_model", ""),
            ("images", "view", "value"),
            ("images", "last_writer_shows", ""),
        ],
    ),
    (
        "An accepted checker never faults, and ends within its budget, on any image of its size.",
        [("soundness", "accepted_runs_safely", "")],
    ),
    (
        "Threads and cache never change an answer, and no block of images is lost or counted twice.",
        [("workers", "explore_all", "whole"), ("workers", "explore_all", "first")],
    ),
    (
        "`why` counts just these images, and names the fewest flushes for all that flushes help against.",
        [
            ("runs", "run_with", "told"),
            ("losses", "places_are_fewest", ""),
            ("losses", "flush_takes_away", ""),
            ("losses", "no_flush_helps", ""),
        ],
    ),
    ("Every function is safe on any input, and returns, unless it waits or the stack runs out.", []),
]
# Definitions that are named and not followed: crate, file of specs/ or none for all, and names or none for all; and why.
LEFT_OUT = [
    (
        "the lists of cuts, parts, choices and failing lines, as they are made",
        [
            ("epochs", "Cuts", "cuts_of"),
            ("epochs", "Parts", "volatile_parts"),
            ("choices", "Choices", "ranked_choices ranked_before ranked_at"),
            ("workers", "Failing", "failing_lines"),
        ],
        "laws say in plainer words what each has: `cuts_are_set`, `volatile_is_set`, `ranked_is_model` and `lines_are_set`",
    ),
    (
        "which programs the verifier accepts",
        [("bpf_shape", "", ""), ("intervals", "", ""), ("ranges", "", ""), ("verifier", "", "")],
        "the third promise is that what is accepted runs safely, whatever these say. A mistake in them makes other programs accepted",
    ),
    (
        "runs with `--guards`",
        [
            ("runs", "Explore", "IsGuarded"),
            ("machine", "Guards", "guarded_outcome"),
            ("soundness", "Guards", ""),
            ("workers", "Safe", "IsOverWithGuards RunsSafelyWithGuards"),
        ],
        "an option that no promise of the list names. A run without it names none of these",
    ),
    (
        "parts of a run (`--images`), added flushes (`--flush`) and the number of the initial content",
        [
            ("report", "Part", "span_report"),
            ("request", "Inputs", "inputs_number"),
            ("logfmt", "Flushed", "with_flushes"),
            ("epochs", "Flushes", "places_of"),
            ("images", "Number", "initial_number"),
        ],
        "a run without these options has none, and a report says of each what was asked",
    ),
    (
        "the head of a report and the text of `why`",
        [("report", "Report", "options_text options_line program_lines"), ("runs", "Why", "why_text")],
        "the head repeats what was asked. The fifth promise is of what is counted and named, and not of its text",
    ),
    (
        "that a program's bytes have no fault",
        [("bpf_isa", "Program", "HasNoFault")],
        "which program they spell is said without it",
    ),
    (
        "the page, the groups of `why` with what they end in, and `why` and the page of cases",
        [
            ("runs", "Paged", "IsPageOf"),
            ("losses", "CountedGroups", "AreGrouped ends_as"),
            ("losses", "ProgramOutcomes", "outcomes_failing"),
            ("case_text", "Why", "TellsWhy"),
            ("case_page", "CaseFlushes", "IsCasePage"),
        ],
        "no promise of the list is of them",
    ),
    (
        "the text of the first failing case alone",
        [("runs", "Cases", "TellsFirst")],
        "`--first`, an option that no promise of the list names",
    ),
    (
        "cures, run by run",
        [("runs", "Cured", "IsCured IsCasesCured")],
        "the call that answers `why` answers these too, where they are asked for. The fifth promise is of `why`",
    ),
]
# The crates whose definitions say what the program answers, and what its words ask for.
ROOTS = ("commands", "command_line")
BEGIN = re.compile(r"(?:abbrev pub|unfoldable pub|pub record|pub data|pub) (\S+)")
USE = re.compile(r"\s*(?:ghost )?(?:pub )?use Rattle\.([\w.]+?)(?:\.\{(.*)\}| as (\w+))?;?$")
WORD = re.compile(r"[^\s(){}\[\],;]+")


class Definition:
    """A definition: where it stands, its lines with its comment, and what it names."""

    def __init__(self, module, name, lines):
        self.module, self.name, self.lines, self.names = module, name, lines, set()

    def body(self):
        return "\n".join(it for it in self.lines if not it.startswith("--"))

    def constructors(self):
        is_data = any(it.startswith("pub data") for it in self.lines)
        return [it[1] for line in self.lines if is_data for it in [re.match(r"  (\S+) :", line)] if it]

    def bound(self):
        """Returns the names of variables in it."""
        body, found = self.body(), set()
        for group in [*re.findall(r"\(([^():]+) :", body), *re.findall(r"λ ([^.()]+)\.", body)]:
            found |= set(group.split())
        for line in body.splitlines():
            row = re.match(r"(\S+)((?: [^=:]+)?) =(?: |$)", line)
            if row and row[1] == self.name:
                found |= set(re.findall(r"(?<![\w.])[a-z]\w*'?(?![\w.])", row[2]))
        return found

    def words(self):
        """Returns its words, without strings and the names of fields where they are declared or given."""
        body = re.sub(r"(?m)^  pub \S+ :", "", re.sub(r'"[^"]*"', "", self.body()))
        body = re.sub(r"(?m)([{;]\s*|^  )\w+ =", r"\1", body)
        bound = self.bound()
        words = [it.strip(".") for it in WORD.findall(body)]
        return [it for it in words if it.partition(".")[0] not in bound]


class Sources:
    """The definitions of all crates, with what each names."""

    def __init__(self, top):
        self.top, self.uses, self.found, self.known = top, {}, {}, {}
        for crate in ledger.crates(top):
            for module in modules(top / "crates" / crate / "specs"):
                self.parse(crate, module)
        for module, definitions in self.found.items():
            self.known[module] = {it.name: it for it in definitions}
            for definition in definitions:
                for name in definition.constructors():
                    self.known[module].setdefault(name, definition)
        for module, lines in self.uses.items():
            for name, it in self.named(line for line in lines if line.startswith("pub use "))[0].items():
                self.known[module].setdefault(name, it)
        for module, definitions in self.found.items():
            names, aliases = self.named(self.uses[module])
            for definition in definitions:
                own = {**names, **self.known[module]}
                definition.names = {it for word in definition.words() for it in self.find(word, own, aliases)} - {definition}

    def parse(self, crate, name):
        """Takes the definitions of a file."""
        module, notes, current = f"{crate}.specs.{name}", [], None
        self.uses[module], self.found[module] = [], []
        for line in (self.top / "crates" / crate / "specs" / f"{name}.antt").read_text().splitlines():
            begun = BEGIN.match(line)
            if line.startswith(("use ", "pub use ", "infix", "pub mod")):
                self.uses[module].append(line)
                current, notes = None, []
            elif line.startswith("--"):
                notes, current = [*([] if current else notes), line], None
            elif not line.strip():
                notes = notes if current else []
            elif begun:
                current, notes = Definition(module, begun[1], [*notes, line]), []
                self.found[module].append(current)
            elif current:
                current.lines.append(line)

    def named(self, lines):
        """Returns the names that lines of `use` bring, each with its definition or its place, and the short names of modules."""
        names, aliases = {}, {}
        for it in filter(None, map(USE.match, lines)):
            if it[3]:
                aliases[it[3]] = it[1]
            for part in re.split(r",\s*", it[2] or ""):
                old, _, new = part.partition(" as ")
                names[new or old] = self.known.get(it[1], {}).get(old) or f"{it[1]}.{old}"
        return names, aliases

    def find(self, word, names, aliases):
        """Returns the definition that a word is of, or its place, or nothing."""
        head, _, tail = word.partition(".")
        if word in names or head in names:
            return [names.get(word) or names[head]]
        if head in aliases:
            name = tail.partition(".")[0]
            return [self.known.get(aliases[head], {}).get(name) or f"{aliases[head]}.{name}"]
        return []

    def clause(self, crate, call, clause):
        """Returns the file of a call, the lines of its clause, and what these name; or None."""
        for path in sorted((self.top / "crates" / crate / "src").rglob("*.rt")):
            lines = path.read_text().splitlines()
            for start in [at for at, it in enumerate(lines) if re.match(rf"\s*pub fn {call}\b", it)]:
                end = next(at for at, it in enumerate(lines) if at >= start and it.strip() in ("{", "{}"))
                begin = re.compile(rf"\s*ensures {clause} \{{" if clause else r"\s*ensures \{")
                found = [it.strip() for it in lines[start:end] if begin.match(it)]
                if found:
                    names, aliases = self.named([it for it in lines if it.lstrip().startswith("ghost use")])
                    named = {it for word in WORD.findall(found[0]) for it in self.find(word.strip("."), names, aliases)}
                    return path.relative_to(self.top), found[0], named
        return None


def layers(top):
    """Returns the layers of crates.txt: the title of each, and its crates."""
    found = []
    for line in (top / "crates.txt").read_text().splitlines():
        title = re.match(r"# \d+\. ([^:]+):", line)
        if title:
            found.append((title[1], []))
        elif found and ":" in line and not line.startswith("#"):
            found[-1][1].append(line.split(":")[0])
    return found


def modules(folder):
    """Returns the files of definitions of a crate, in the order of its specs/Lib.antt."""
    lib = folder / "Lib.antt"
    names = re.findall(r"(?m)^pub mod (\w+)$", lib.read_text()) if lib.exists() else []
    return [it for it in names if (folder / f"{it}.antt").exists()]


def is_left_out(definition):
    crate, _, module = definition.module.split(".")
    rows = [row for _, rows, _ in LEFT_OUT for row in rows]
    return any(it[0] == crate and it[1] in ("", module) and (not it[2] or definition.name in it[2].split()) for it in rows)


def followed(found, named, but_for=is_left_out):
    """Adds what is named to what was found, and what that names, but for what is left out."""
    left = list(named)
    while left:
        it = left.pop()
        if it not in found and not (isinstance(it, Definition) and but_for(it)):
            found.add(it)
            left.extend(getattr(it, "names", []))


def counted(named, but_for):
    """Returns how many definitions are followed from what is named, and in how many files they stand."""
    found = set()
    followed(found, named, but_for)
    modules = [it.module for it in found if isinstance(it, Definition)]
    return f"{len(modules)} definitions in {len(set(modules))} files"


def believed(sources):
    """Returns the files of definitions to which those of ROOTS lead."""
    found, left = set(), [it for it in sources.uses if it.split(".")[0] in ROOTS]
    while left:
        module = left.pop()
        if module in sources.uses and module not in found:
            found.add(module)
            left.extend(it[1] for it in map(USE.match, sources.uses[module]) if it)
    return found


def type_of(place):
    """Returns the file and the name of a type of the code: of `x.specs.declared.y.Z.Z` crates/x/src/y.rt and Z."""
    crate, _, _, *parts = place.split(".")
    at = next(at for at, it in enumerate(parts) if it[0].isupper())
    return f"crates/{crate}/src/{'/'.join(parts[:at]) or 'lib'}.rt", parts[at]


def anchor(heading):
    return re.sub(r"[^\w\- ]", "", heading.lower()).replace(" ", "-")


HEAD = """# What has to be believed

Made by `tools/statement.py` of the crates' sources. A proof ties the code to definitions, and that these say what was meant \
has to be read. Here is each promise of [README.md](../README.md#what-is-proved) with the clauses that carry it, and then the \
definitions on which these rest, whole: those in which a mistake would make the promise untrue. What isn't followed, and why, \
[stands last](#what-is-named-alone). [PROVED.md](PROVED.md) has what else is proved, and what is trusted besides: the prover, \
the compilers, the standard library.

A few words for reading: `abbrev` and `unfoldable` define a name by equations. A `record` holds where all its fields do, a \
`data` where one of its rows does. `∷` puts an element before a list and `++` joins two. `λ x. e` is the function that makes e \
of x, `(x : A) → B` says B of each x, `(x : A) × B` that there is an x with B. A clause `IfOk result P` says P of what an answer \
`Ok` holds, and `OnOk` of the moment of such an answer.

| Part | Has | Definitions |
|---|---|---|
| [On one page](#on-one-page) | the first promise in plain words | |
| [The promises](#the-promises) | the clauses that carry each | |
"""
PLAIN = """
## On one page

README.md's first promise in plain words: what the definitions on which it rests say, file by file. Whoever believes these lines, \
and what [PROVED.md](PROVED.md#what-has-to-be-believed) trusts, has the promise. Each file stands once, where it comes first.
"""
CONTENTS = """| [What is named alone](#what-is-named-alone) | types of the code, the library, what is left out and why | |
| [All files of definitions](#all-files-of-definitions) | the files of `specs/` on which PROVED.md rests, by crate | |
"""
NO_CLAUSE = "It names no definition: the prover asks it of each function of each crate, called as its `requires` ask."
ALONE = """
## What is named alone

Left out, since a mistake there wouldn't make a promise of the list untrue:

| What | Where | Why |
|---|---|---|
"""
TYPES = """
Types of the code, as structs and enums with the same fields and names:

| File | Types |
|---|---|
"""
FILES = """
## All files of definitions

What [PROVED.md](PROVED.md) says rests on these. The first line of each says what it defines, and which section of a document it \
states.

| Crate | Files of `specs/` |
|---|---|
"""


def split(module):
    """Returns the crate and the name of a file of definitions."""
    crate, _, name = module.split(".")
    return crate, name


def by_crate(modules):
    """Returns the names of files of definitions, with the name of their crate before those of each."""
    groups = itertools.groupby(map(split, modules), lambda it: it[0])
    return "; ".join(f"{crate} {', '.join(name for _, name in own)}" for crate, own in groups)


def listed(names):
    return ", ".join(f"`{it}`" for it in names)


class Page:
    """The document as it is made, with what wasn't found of PROMISES and LEFT_OUT."""

    def __init__(self, top):
        self.top, self.sources, self.found, self.missing = top, Sources(top), set(), []
        self.crates = ledger.crates(top)
        promises = self.promises()
        contents, definitions = self.definitions()
        self.text = "".join([HEAD, contents, CONTENTS, self.plain(), "\n## The promises\n", promises, definitions, self.alone(), self.files()])

    def plain(self):
        """Returns the first promise in plain words, and finds fault where these have other files than it leads to."""
        text, before = PLAIN, set()
        for title, about, roots, lines in plain_words.PARTS:
            found = set(before)
            followed(found, {it for root in roots for it in self.root(root)})
            new = {it for it in found - before if isinstance(it, Definition)}
            own = {it for it in new if split(it.module)[0] not in plain_words.MACHINE}
            text += f"\n### {title}\n\n{about}\n\n| File | Says |\n|---|---|\n"
            text += "".join(f"| `crates/{file.replace('.', '/specs/')}.antt` | {words} |\n" for file, words in lines.items())
            text += f"\n{len(own)} definitions, the machine's aside.\n"
            files = {".".join(split(it.module)) for it in own}
            first = {".".join(split(it.module)) for it in before if isinstance(it, Definition)}
            self.missing += [f"tools/plain_words.py has no line of {it}" for it in sorted(files - first - set(lines))]
            self.missing += [f"tools/plain_words.py has a line of {it}, to which nothing leads" for it in sorted(set(lines) - files)]
            before = found
        crates = [f"`{it}`: {words}" for it, words in plain_words.MACHINE.items()]
        return f"{text}\n### The machine\n\n" + "".join(f"- {it}.\n" for it in crates)

    def root(self, root):
        """Returns the definitions that a clause names, or the one that is named."""
        if isinstance(root, str):
            crate, file, name = root.split(".")
            return {self.sources.known[f"{crate}.specs.{file}"][name]}
        return self.sources.clause(*root)[2]

    def promises(self):
        """Returns the promises with their clauses, and takes the definitions to which these lead."""
        readme = re.sub(r"\]\([^)]*\)", "", " ".join((self.top / "README.md").read_text().split())).replace("[", "")
        text = ""
        for number, (promise, carriers) in enumerate(PROMISES, 1):
            if promise not in readme:
                self.missing.append(f"README.md doesn't promise '{promise}'")
            before = set(self.found)
            clauses = "".join(self.clause(*it) for it in carriers)
            new = {split(it.module)[0] for it in self.found - before if isinstance(it, Definition)}
            text += f"\n### {number}. {promise}\n\n{clauses}{self.named_first(new) if carriers else NO_CLAUSE}\n"
        return text

    def named_first(self, crates):
        names = listed(it for it in self.crates if it in crates)
        return f"Definitions that no promise before leads to are in {names}." if names else "The promises before lead to all its definitions."

    def clause(self, crate, call, clause):
        """Returns the text of a clause with how far it leads, and takes the definitions to which it leads."""
        at = self.sources.clause(crate, call, clause)
        if at is None:
            self.missing.append(f"{crate} has no call {call} with the clause '{clause}'")
            return ""
        path, text, named = at
        followed(self.found, named)
        reach = f"It rests on {counted(named, is_left_out)}. With what is left out they are {counted(named, lambda it: False)}."
        return f"`{call}` in `{path}`:\n\n```rust\n{text}\n```\n\n{reach}\n\n"

    def definitions(self):
        """Returns the rows of the contents and the definitions, by layer, crate and file."""
        contents, text = "", ""
        for title, names in layers(self.top):
            files = {it: [one for one in own if one in self.found] for it, own in self.sources.found.items() if split(it)[0] in names}
            files = {it: own for it, own in files.items() if own}
            if files:
                count = sum(len(it) for it in files.values())
                contents += f"| [{title}](#{anchor(title)}) | {by_crate(files)} | {count} |\n"
                text += f"\n## {title}\n" + "".join(self.crate(it, files) for it in names)
        return contents, text

    def crate(self, name, files):
        """Returns the definitions of a crate, a part for each of its files."""
        parts = []
        for module, definitions in files.items():
            crate, file = split(module)
            if crate == name:
                lines = [line for it in definitions for line in it.lines]
                parts.append("\n".join([f"-- {'-' * 20} crates/{crate}/specs/{file}.antt", *lines]))
        body = "\n\n".join(parts)
        return f"\n### {name}\n\n```antt\n{body}\n```\n" if parts else ""

    def alone(self):
        """Returns what is left out, the types of the code and the names of the library."""
        text = ALONE
        for what, rows, why in LEFT_OUT:
            text += f"| {what} | {', '.join(self.place(*it) for it in rows)} | {why} |\n"
        types, library = {}, set()
        for place in (it for it in self.found if isinstance(it, str)):
            if ".declared." in place:
                path, name = type_of(place)
                types.setdefault(path, set()).add(name)
            elif place.startswith("std."):
                library.add(place.split(".")[-1])
        text += TYPES + "".join(f"| `{path}` | {listed(sorted(names))} |\n" for path, names in sorted(types.items()))
        lines = "\n".join(textwrap.wrap(" ".join(sorted(library)), 110))
        return f"{text}\nOf the standard library:\n\n```text\n{lines}\n```\n"

    def place(self, crate, file, names):
        """Returns where something stands that is left out."""
        known = self.sources.known.get(f"{crate}.specs.{file}", {})
        self.missing += [f"{crate} has no definition {it} in {file}" for it in names.split() if it not in known]
        return f"{listed(names.split()) or (f'`specs/{file}.antt`' if file else 'all')} of `{crate}`"

    def files(self):
        """Returns all files on which PROVED.md rests, by crate."""
        found, text = believed(self.sources), FILES
        files = [split(it) for it in self.sources.uses if it in found]
        for crate in self.crates:
            own = [file for it, file in files if it == crate]
            text += f"| `{crate}` | {', '.join(own)} |\n" if own else ""
        return text


def findings(top):
    """Returns what the document has otherwise than the sources."""
    page, path = Page(top), top / PAGE
    yield from page.missing
    if not path.exists() or path.read_text() != page.text:
        yield "isn't what tools/statement.py writes"


def main():
    words = sys.argv[1:]
    if words[:1] == ["--check"]:
        found = list(findings(Path(words[1]).resolve() if words[1:] else TOP))
        print("\n".join(f"{PAGE}: {it}" for it in found), end="\n" if found else "")
        return 1 if found else 0
    page = Page(TOP)
    for it in page.missing:
        print(it, file=sys.stderr)
    (TOP / PAGE).write_text(page.text)
    return 1 if page.missing else 0


if __name__ == "__main__":
    sys.exit(main())
