#!/usr/bin/env python3
"""Checks the documents of the repository. Prints a line for each finding; the status is then 1, else 0.

    tools/check_documents.py [TOP]
    tools/check_documents.py --long [TOP]

The documents are the files *.md at the top (the folder above this one, or TOP), in docs/ and bench/, and in examples/ and its
folders.

- A link leads to a file that exists and, with #, to a heading in it.
- A document that is named by its file, as docs/MAP.md or MAP.md, exists, and one that is named with a section, as
  MACHINE.md, 'Helpers', has it. This is asked of the crates' sources and definitions too. There, and in scripts, so is a section
  that is named without quotes after docs/MACHINE.md and a comma, with a capital letter.
- Each run of table rows begins with a head and a line of dashes, so no blank line cuts a table in two.
- README.md has at most 130 lines of at most 100 characters, and at most 1,300 words with code and tables.
- The documents at the top and in docs/ and examples/ have no more long sentences than LONG allows. With --long they are
  printed, each with its file, line and number of words, and nothing else is looked at. A name or a piece of code in
  backticks is one word. The numbers of LONG only fall: whoever shortens sentences writes down what is left.

README.md names the kit that the program names by --version.

For what stands in backticks and has no space in it, in each document:

- A path (with a slash, not in front) exists, seen from the top, from the document's folder, from crates/ or from one of the
  crates at hand; or in examples/, where it may lack the ending. A folder out/ is made by a build, and isn't looked into.
- A file *.rt or *.antt that is named alone is one of the crates at hand.
- A name with _, :: or ( in it has words of the crates' sources, definitions, proofs and file names, of the scripts, the
  examples, the man page or the documents' blocks of code.
- Of `NAME` in `PLACE`, or of, where PLACE is such a path or file or a crate, the words of NAME stand there, or NAME is a
  file there.

The crates at hand are those of the section, where its heading names crates and nothing else; in a row of a table whose
first cell is crates alone, these; and those that the line names. Elsewhere they are all. OTHERS has what other programs
are made of, and NAME stands for any name.

In README.md and docs/PROVED.md, moreover:

- A path exists, seen from the top.
- A name (identifiers joined by :: or a dot, with -- before it for an option) is known: each of its identifiers is a
  word of the crates' sources or definitions, of their file names, or of crates.txt.
- Names in parentheses after a name of a function, as in `read` (`found`, `clean`), are clauses of that function.

In docs/PROVED.md each call and clause that a table names is one of the sources, as tools/ledger.py says it. docs/STATEMENT.md is
what tools/statement.py writes of the sources.

docs/MAP.md has a row for each crate of crates.txt in its table of layers, and for no other. Its lists of what to touch for a
new opcode, a new helper and a new fate name each file of code, definitions and lemmas that tells all forms of the enum in TOLD_APART
apart, in a row of its crate. Tests are left out. They, and those for a new cause and a new option, name each file in which such a
thing's neighbour is named (tools/plant_dummy.py).

tests/gate/edits.txt names edits of crates/*/wrong/, in groups by crate, and says of each which promise it guards. These and those of
must-fail/ are at most EDITS, and at most MUST_FAIL stand in must-fail/. Each public call with a `requires` that the crates of
tests/crates make has a caller that is proved (tools/callers.py).

The files in docs/completions/ are what tools/completions.py writes of docs/crashbpf.1, which tests/gate/run.py compares with what
the program's help says.

Blocks of code, fenced or indented by four spaces, aren't looked at.
"""
import os
import re
import sys
from functools import cache, cached_property
from pathlib import Path

sys.dont_write_bytecode = True

import callers
import completions
import ledger
import plant_dummy
import statement
import wrong_bodies

# The folders of scripts, C sources and examples.
SCRIPTS = ("commands", "include", "tests", "tools", "bench", "examples")
# The most lines of README.md, the most characters of each, and its most words.
LINES, CHARACTERS, WORDS = 130, 100, 1300
# The most edits that the gate tries, and the most of them in must-fail/, each of which costs another proof of its crate.
EDITS, MUST_FAIL = 140, 1
# How many sentences have more words than the number before it.
LONG = {40: 0, 60: 0}
# What stands for a space and a bar of a piece of code, so that it is one word of one cell.
HIDDEN = {ord(" "): "\0", ord("|"): "\1"}
SHOWN = {ord("\0"): " ", ord("\1"): "|"}
NAME = re.compile(r"(--)?[A-Za-z_]\w*((::|\.)[A-Za-z_]\w*)*(\(\))?")
CLAUSES = re.compile(r"`([\w:]+)` \((`\w+`(?:, `\w+`)*)\)")
CODE = re.compile(r"`([^`\s]+)`")
PATH = re.compile(r"[\w.+-]+(?:/[\w.+-]+)*/?")
FILE = re.compile(r"[\w-]+\.(?:rt|antt)")
WORD = re.compile(r"[A-Za-z_][\w'-]*")
NAMES = re.compile(r"[A-Za-z_][\w':.-]*(\(.*\))?")
PLACED = re.compile(r"`([^`\s]+)` (?:in|of) `([^`\s]+)`")
# The lists of docs/MAP.md, and the enum of which each is, with its file.
TOLD_APART = {
    "For a new opcode": ("Instr", "bpf_isa/src/instr.rt"),
    "For a new helper": ("Helper", "helpers/src/helper.rt"),
    "For a new fate of a unit": ("Fate", "choices/src/fate.rt"),
}
# What the documents name of Linux, QEMU and compilers, of a reader's own, and of arithmetic.
OTHERS = set(
    """drivers/md/dm-log-writes.c log_writes_map normal_end_io fuse_fsync sched_autogroup_enabled fuse_flush bdrv_co_flush
    bdrv_driver_pwritev blk_log_writes_co_log blk_log_writes_co_do_file blk_log_writes_co_do_log librustc-nightly_rt.tsan.a
    __bpf_trap ci/explore.sh ci/record A_j""".split()
)


def sources(top):
    """Returns the crates' files of code and definitions; proofs cite both and are left out."""
    for folder, folders, files in os.walk(top / "crates"):
        folders[:] = sorted(set(folders) - {"out", "proofs", "must-fail", "wrong", "data"})
        yield from (Path(folder) / name for name in sorted(files) if name.endswith((".rt", ".antt")))


def scripts(top):
    """Returns the scripts and C sources of commands/, include/, tests/, tools/, bench/ and examples/."""
    for folder in SCRIPTS:
        yield from (it for it in sorted((top / folder).rglob("*")) if it.suffix in (".py", ".sh", ".c", ".h") and "out" not in it.parts)


def prose(text):
    """Returns the lines of a document, with those of code blocks empty."""
    fenced, lines = False, []
    for line in text.splitlines():
        fence = line.lstrip().startswith("```")
        fenced ^= fence
        lines.append("" if fenced or fence or line.startswith("    ") else line)
    return lines


@cache
def headings(path):
    """Returns the anchors of a document's headings."""
    found = (re.match(r"#+ (.*)", line) for line in prose(path.read_text()))
    return {re.sub(r"[^\w\- ]", "", it[1].lower()).replace(" ", "-") for it in found if it}


@cache
def titles(path):
    """Returns the headings of a document, without backticks."""
    return [it[1].replace("`", "") for it in (re.match(r"#+ (.*)", line) for line in prose(path.read_text())) if it]


def bad_links(path, line):
    """Returns what is wrong with the links of a line."""
    for target in re.findall(r"\]\(([^)]+)\)", re.sub(r"`[^`]*`", "", line)):
        if not re.match(r"[a-z]+:", target):
            name, _, anchor = target.partition("#")
            file = path.parent / name if name else path
            if not file.exists():
                yield f"no file for the link {target}"
            elif anchor and anchor not in headings(file):
                yield f"no heading for the link {target}"


def unknown_documents(top, line):
    """Returns the documents that a line names and that don't exist."""
    for name in re.findall(r"\b[A-Z][A-Z-]+\.md\b", line):
        if not any((top / folder / name).exists() for folder in ("", "docs", "bench")):
            yield f"no document {name}"


def unknown_sections(top, line):
    """Returns the sections that a line names by document and heading, as MACHINE.md, 'Helpers', and that aren't there."""
    for name, title in re.findall(r"\b([A-Z][A-Z-]+\.md), '((?:[^']|'(?=\w))+)'", line):
        files = [it for it in (top / folder / name for folder in ("", "docs", "bench")) if it.exists()]
        if files and re.sub(r"[^\w\- ]", "", title.lower()).replace(" ", "-") not in headings(files[0]):
            yield f"{name} has no section '{title}'"


def unknown_places(top, text):
    """Returns the sections that a text names without quotes, as docs/MACHINE.md, Helpers, and that aren't there, with their lines.

    A line may end within the name of a section. What follows the name is the sentence's own.
    """
    for found in re.finditer(r"docs/([A-Z][A-Z-]+\.md),\s+(?:(?://[/!]?|--|#)\s*)?([A-Z])", text):
        path, said = top / "docs" / found[1], text[found.start(2) : found.start(2) + 120]
        said = re.sub(r"\s+", " ", re.sub(r"\n\s*(//[/!]?|--|#)?\s*", " ", said)).replace("`", "")
        if path.exists() and not any(said.startswith(it) and not said[len(it) :][:1].isalnum() for it in titles(path)):
            yield text.count("\n", 0, found.start()) + 1, f"{found[1]} has no section '{said[:40]}..'"


def cut_tables(lines):
    """Returns the numbers of lines at which table rows begin without a head."""
    for number, line in enumerate(lines, 1):
        begins = line.startswith("|") and not (number > 1 and lines[number - 2].startswith("|"))
        if begins and not "".join(lines[number:number + 1]).startswith("|--"):
            yield number


def paragraphs(lines):
    """Returns the paragraphs, points of lists and cells of tables of a document, each with the number of its line."""
    begun, text = 0, []
    for number, line in enumerate([*lines, ""], 1):
        starts = not line.strip() or line.startswith("|") or re.match(r"\s*([-*]|\d+\.|#+) ", line)
        if starts and text:
            yield begun, " ".join(text)
            text = []
        if line.startswith("|"):
            yield from ((number, cell) for cell in line.split("|"))
        elif line.strip():
            begun = begun if text else number
            text.append(re.sub(r"^\s*([-*]|\d+\.|#+) ", "", line).strip())


def long_sentences(lines, limit):
    """Returns the sentences with more words than the limit, each with the line of its paragraph and its number of words."""
    hidden = [re.sub(r"`[^`]*`", lambda code: code[0].translate(HIDDEN), line) for line in lines]
    for number, text in paragraphs(hidden):
        for sentence in re.split(r"(?<=[.!?])[)'*]*\s+(?=[^a-z\s])", re.sub(r"\]\([^)]*\)", "]", text)):
            words = len(re.findall(r"\S*\w\S*", sentence))
            if words > limit:
                yield number, words, sentence.strip().translate(SHOWN)


def documents(top):
    """Returns the documents that people read: those at the top and in docs/, and the pages of the examples."""
    return [it for pattern in ("*.md", "docs/*.md", "examples/*.md", "examples/*/*.md") for it in sorted(top.glob(pattern))]


class Repository:
    """What there is to be named: the files of the crates, and the words of all that people write but prose."""

    def __init__(self, top):
        self.top, self.crates = top, ledger.crates(top)
        # The texts of the files by their paths, the paths below each folder and of each name, and the words of some files.
        self.texts, self.below, self.named, self.spoken = {}, {}, {}, {}
        for crate in self.crates:
            for folder, folders, names in os.walk(top / "crates" / crate):
                folders[:] = sorted(set(folders) - {"out"})
                for path in (Path(folder, name) for name in names):
                    self.add(path.relative_to(top / "crates"), path.read_text() if FILE.fullmatch(path.name) else "")

    def add(self, path, text):
        """Adds a file of the crates."""
        self.texts[str(path)] = text
        self.named.setdefault(path.name, []).append(str(path))
        for place in (path, *path.parents):
            self.below.setdefault(str(place), []).append(str(path))

    @cached_property
    def words(self):
        """The words of code, proofs, scripts, examples, file names and blocks of code."""
        texts = [*self.texts, *self.texts.values(), (self.top / "crates.txt").read_text(), (self.top / "docs/crashbpf.1").read_text()]
        for folder in SCRIPTS:
            for path in (self.top / folder).rglob("*"):
                texts.append(path.name)
                if path.suffix in (".py", ".sh", ".c", ".h", ".rs", ".s", ".txt") and "out" not in path.parts:
                    texts.append(path.read_text(errors="replace"))
        for path in [*documents(self.top), *self.top.glob("bench/*.md")]:
            text = path.read_text()
            texts += [line for line, is_prose in zip(text.splitlines(), prose(text)) if line != is_prose]
        return words_of(" ".join(texts))

    def words_in(self, files):
        """Returns the words of these files."""
        key = tuple(files)
        if key not in self.spoken:
            self.spoken[key] = words_of(" ".join([*files, *(self.texts[it] for it in files)]))
        return self.spoken[key]

    def at_hand(self, line, section):
        """Returns the crates of which a line of a section speaks."""
        cell = line.split("|")[1] if line.startswith("|") else ""
        first = CODE.findall(cell) if not re.search(r"[^\s,]", CODE.sub("", cell)) else []
        own = section or [it for it in first if set(first) <= set(self.crates)]
        named = [it.split("/")[0] for it in CODE.findall(line)]
        return list(dict.fromkeys([*own, *(it for it in named if it in self.crates)])) if own else self.crates

    def found(self, place, crates):
        """Returns the files of the crates that a path, the name of a file or that of a crate leads to."""
        place = place.rstrip("/")
        if FILE.fullmatch(place):
            return [it for it in self.named.get(place, []) if it.split("/")[0] in crates]
        return [it for root in (place, *(f"{crate}/{place}" for crate in crates)) for it in self.below.get(root, [])]

    def is_path(self, path, document, crates):
        example = self.top / "examples" / path.rstrip("/")
        is_there = (self.top / path).exists() or (document.parent / path).exists() or example.exists()
        return is_there or bool(self.found(path, crates)) or any(example.parent.glob(f"{example.name}.*"))

    def lacks(self, document, line, section):
        """Returns what a line of a document names that isn't there."""
        crates = self.at_hand(line, section)
        for span in CODE.findall(line):
            if span in OTHERS or re.search(r"\bNAME\b", span) or span.startswith("/") or "/out/" in f"/{span}/":
                continue
            if "/" in span and PATH.fullmatch(span):
                if not self.is_path(span, document, crates):
                    yield f"no file {span}"
            elif FILE.fullmatch(span):
                if not self.found(span, crates):
                    yield f"no file {span}" + (f" in {', '.join(crates)}" if crates is not self.crates else "")
            elif NAMES.fullmatch(span) and re.search(r"_|::|\(", span):
                yield from (f"nothing has the name {it} of {span}" for it in WORD.findall(span) if it not in self.words)
        for span, place in PLACED.findall(line):
            files = self.found(place, crates) if PATH.fullmatch(place) else []
            if files and FILE.fullmatch(span):
                if not set(files) & set(self.named.get(span, [])):
                    yield f"no file {span} in {place}"
            elif files and NAMES.fullmatch(span):
                yield from (f"{place} doesn't have {it} of {span}" for it in WORD.findall(span) if it not in self.words_in(files))

    def section(self, heading):
        """Returns the crates of a section, where its heading names crates and nothing else, but for a word and a colon."""
        names = re.split(r", | and ", heading.rpartition(": ")[2])
        return names if set(names) <= set(self.crates) else []


def words_of(text):
    """Returns the words of a text, as it has them and without what a hyphen joins."""
    joined = set(WORD.findall(" ".join(set(text.split()))))
    return joined | {part for it in joined for part in re.split(r"['-]", it)}


def strays(repository, document, lines):
    """Returns what a document names that isn't there, each with the number of its line."""
    section = []
    for number, line in enumerate(lines, 1):
        heading = re.match(r"#+ (.*)", line)
        if heading:
            section = repository.section(heading[1])
        else:
            yield from ((number, it) for it in repository.lacks(document, line, section))


def unlisted(repository, page):
    """Returns the files that docs/MAP.md lacks in the lists of TOLD_APART."""
    for title, (enum, file) in TOLD_APART.items():
        rows = page.partition(f"### {title}")[2].partition("\n### ")[0].split("\n")
        body = re.search(rf"pub enum {enum} \{{(.*?)\n\}}", repository.texts[file], re.S)[1]
        forms = set(re.findall(r"(?m)^    ([A-Z]\w*)", body))
        told = re.compile(rf"\b(?:{enum}::|{enum.lower()}\.)(\w+)")
        for path, text in repository.texts.items():
            crate, name = path.split("/")[0], path.rpartition("/")[2]
            if enum in text and forms <= set(told.findall(text)) and path != file and not crate.endswith("_tests"):
                if not any(re.match(rf"\|[^|]*`{crate}`[^|]*\|", row) and re.search(rf"[`/]{name}`", row) for row in rows):
                    yield f"'{title}' lacks {path}"


def wrong_edits(top):
    """Returns what is wrong with the edits that the gate tries."""
    try:
        listed = wrong_bodies.listed_in(top / "tests/gate/edits.txt")
    except ValueError as error:
        yield str(error)
        return
    yield from (f"no edit {it} in wrong/" for it in listed if not (top / "crates" / it.replace("/", "/wrong/")).with_suffix(".edit").exists())
    own = len(list((top / "crates").glob("*/must-fail/*.edit")))
    if own > MUST_FAIL:
        yield f"{own} edits stand in must-fail/, and at most {MUST_FAIL} may"
    count = len(listed) + own
    if count > EDITS:
        yield f"the gate tries {count} edits, and at most {EDITS} are allowed"


def clauses_by_function(texts):
    """Returns the names of the clauses of the functions of each name."""
    clauses = {}
    for text in texts:
        for part in re.split(r"\bfn (?=\w)", text)[1:]:
            name = re.match(r"\w+", part)[0]
            clauses.setdefault(name, set()).update(re.findall(r"\bensures (\w+) \{", part))
    return clauses


def unknown_names(top, line, words, clauses):
    """Returns the paths, names and clauses of a line that the crates don't have."""
    for span in re.findall(r"`([^`\s]+)`", line):
        if (top / span).exists() or "/out/" in f"/{span}" or span.startswith("/"):
            continue
        if "/" in span and re.fullmatch(r"[\w./-]+", span):
            yield f"no file {span}"
        elif NAME.fullmatch(span):
            yield from (f"no crate has {word} of {span}" for word in re.findall(r"\w+", span) if word not in words)
    for function, names in CLAUSES.findall(line):
        known = clauses.get(function.rpartition("::")[2])
        if known is not None:
            yield from (f"{function} has no clause {name}" for name in re.findall(r"\w+", names) if name not in known)


def too_long(text):
    """Returns what README.md has too much of, with the number of a line."""
    lines = text.splitlines()
    if len(lines) > LINES:
        yield LINES + 1, f"{len(lines)} lines, and at most {LINES} are allowed"
    yield from ((number, f"more than {CHARACTERS} characters") for number, line in enumerate(lines, 1) if len(line) > CHARACTERS)
    if len(text.split()) > WORDS:
        yield 1, f"{len(text.split())} words, and at most {WORDS} are allowed"


def other_kit(top, text):
    """Returns the kits that README.md names and `crashbpf --version` doesn't, each with the number of its line."""
    kit = re.search(r"\((rattle-kit-[^)]*)\)", (top / "crates/command_line/src/words.rt").read_text())[1]
    for number, line in enumerate(text.splitlines(), 1):
        yield from ((number, f"{it} isn't {kit}, the kit of the program") for it in re.findall(r"`(rattle-kit-[^`]*)`", line) if it != kit)


def wrong_layers(top):
    """Returns what is wrong with the crates in the table of layers of docs/MAP.md."""
    crates = ledger.crates(top)
    rows = re.findall(r"(?m)^\| \d+ \| `(\w+)` \|", (top / "docs/MAP.md").read_text())
    yield from (f"no row for the crate {it}" for it in crates if it not in rows)
    yield from (f"no crate {it}" for it in rows if it not in crates)


def old_completions(top):
    """Returns the files of completions that aren't what the man page makes of them."""
    page = top / "docs/crashbpf.1"
    for name, text in completions.files(page.read_text()).items():
        path = top / "docs/completions" / name
        if not path.exists() or path.read_text() != text:
            yield path


def findings(top):
    """Returns all findings, each with its file and line."""
    yield from ((path, 1, "isn't what tools/completions.py writes") for path in old_completions(top))
    yield from ((top / "docs/PROVED.md", number, it) for number, it in ledger.findings(top))
    yield from ((top / statement.PAGE, 1, it) for it in statement.findings(top))
    yield from ((top / "docs/MAP.md", 1, it) for it in wrong_layers(top))
    yield from ((top / "crates.txt", 1, it) for it in callers.findings(top))
    files = list(sources(top))
    texts = [file.read_text() for file in files]
    words = set(re.findall(r"\w+", (top / "crates.txt").read_text()))
    words.update(word for text in texts for word in re.findall(r"\w+", text))
    words.update(part for file in files for part in re.findall(r"\w+", str(file.relative_to(top))))
    clauses = clauses_by_function(texts)
    for file, text in zip(files, texts):
        for number, line in enumerate(text.splitlines(), 1):
            yield from ((file, number, it) for it in [*unknown_documents(top, line), *unknown_sections(top, line)])
    for path in [*files, *scripts(top)]:
        yield from ((path, number, it) for number, it in unknown_places(top, path.read_text(errors="replace")))
    yield from ((top / "tests/gate/edits.txt", 1, it) for it in wrong_edits(top))
    repository = Repository(top)
    page = (top / "docs/MAP.md").read_text()
    yield from ((top / "docs/MAP.md", 1, it) for it in [*unlisted(repository, page), *plant_dummy.findings(top, page)])
    for limit, allowed in LONG.items():
        count = sum(1 for path in documents(top) for _ in long_sentences(prose(path.read_text()), limit))
        if count > allowed:
            yield top / "docs", 1, f"{count} sentences have more than {limit} words, and at most {allowed} are allowed (--long shows them)"
    for path in sorted([*documents(top), *top.glob("bench/*.md")]):
        lines = prose(path.read_text())
        if path == top / "README.md":
            yield from ((path, number, it) for number, it in too_long(path.read_text()))
            yield from ((path, number, it) for number, it in other_kit(top, path.read_text()))
        yield from ((path, number, "table rows without a head") for number in cut_tables(lines))
        yield from ((path, number, it) for number, it in strays(repository, path, lines))
        strict = path in (top / "README.md", top / "docs" / "PROVED.md")
        for number, line in enumerate(lines, 1):
            yield from ((path, number, it) for it in bad_links(path, line))
            yield from ((path, number, it) for it in [*unknown_documents(top, line), *unknown_sections(top, line)])
            if strict:
                yield from ((path, number, it) for it in unknown_names(top, line, words, clauses))


def print_long(top):
    """Prints the long sentences, the longest first."""
    found = [
        (words, f"{path.relative_to(top)}:{number}: {words} words: {sentence}")
        for path in documents(top)
        for number, words, sentence in long_sentences(prose(path.read_text()), min(LONG))
    ]
    for _, line in sorted(found, key=lambda it: -it[0]):
        print(line)


def main():
    words = sys.argv[1:]
    is_long = words[:1] == ["--long"]
    words = words[is_long:]
    if words and words[0].startswith("-"):
        sys.exit(__doc__)
    top = Path(words[0] if words else Path(__file__).parent.parent).resolve()
    if is_long:
        print_long(top)
        return 0
    found = [f"{path.relative_to(top)}:{number}: {it}" for path, number, it in findings(top)]
    print("\n".join(found), end="\n" if found else "")
    return 1 if found else 0


if __name__ == "__main__":
    sys.exit(main())
