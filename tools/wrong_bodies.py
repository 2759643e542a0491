#!/usr/bin/env python3
"""Tries wrong bodies of functions, and says which of them the contracts refuse.

    tools/wrong_bodies.py [--gate] [--lanes N] [NAME | NAME/EDIT ..]
    tools/wrong_bodies.py --listed FILE [--lanes N]

tries the edits crates/NAME/wrong/EDIT.edit, of all crates where none is named, and with --gate those of must-fail/ too. So it
is run by hand for each crate whose contracts change. It runs at the top of the repository, changes nothing of it but the
crates' out/, and checks a copy of each crate, begun with what `rt check` kept. N crates are tried side by side (one where N
isn't given), each by one check at a time.

With --listed it tries the edits that FILE names, as the gate does after `rt ci`. There a line `NAME:` begins those of a crate,
and each stands below it in a line of its own, moved in: EDIT, a colon, and the promise that it guards, in a few words. It works
on a copy of the crates, over the libraries that `rt ci` kept or left; what isn't there is proved. A check then asks for the
functions that its edits change, and takes what they call by its contract, where a hole stands in place of the proof. What isn't
refused so is tried once more with the proofs of what they call. Where the crate itself was proved of the same text, it isn't
proved once more; else these functions are, without an edit. RT_JOBS is N where none is given.

An edit has the form that `rt must-fail` reads; it may name several files. Edits that change different functions are tried in
one check. An edit is refused where an error of the proof lies in a function that it changes; where it changes a constant, in
one that names the constant.

An edit of a definition names the law above it, in a line `# law: proofs/FILE` or `# law: src/FILE`, and is refused where an error
lies there, in a check that tries nothing else. That is one of the whole crate, or where a function stands after the file, as in
`# law: proofs/Sets.antt laws::cuts_are_set`, of that function and of those that the edit changes. With a law an edit may also
change proofs below it, in other files than the law's, so that what lies between is proved.

The law may stand in another crate above, in a line `# law: crates/NAME/proofs/FILE`, and an edit with such a law may name files of
several crates, as in `file: crates/NAME/src/FILE`. It is tried in a copy of the repository: each crate from those that it changes
up to the law's is proved with it, and then the law's crate is checked. Where one of those below isn't proved, it is refused
elsewhere. That takes as long as proving these crates from nothing, so such edits are tried by hand. None of these counts:

- that another function or law isn't proved;
- that a proof names what the edit took away, or that a cast or an overflow alone isn't proved;
- that the prover came to a limit of memory or steps;
- that the text can't be read, or doesn't compile: that is a bad edit, and so is one of a contract or a proof.

What isn't refused so is tried once more with what else is left, and then by itself. What is still proved where its functions
alone are asked for is tried with the whole crate, to tell whether that is refused elsewhere.

It prints a line for each edit: refused and where, refused elsewhere, not refused, bad edit, or not tried. The last line is
`N refused, M not`. The status is 0 where M is 0. tests/by_hand/wrong_bodies.py tests it.
"""
import contextlib
import os
import re
import resource
import shutil
import signal
import sys
import tempfile
import threading
from concurrent.futures import ThreadPoolExecutor

sys.dont_write_bytecode = True

import holes
import kit
import take_kept

FUNCTION = re.compile(r"\bfn\s+(\w+)")
CONSTANT = re.compile(r"\b(?:const|static)\s+([A-Z]\w*)\s*:")
IMPL = re.compile(r"(?m)^[ \t]*(?:unsafe\s+)?impl\b")
# What may follow the closing brace of a clause, before the function's body.
CLAUSES = re.compile(r"\s*(?:\{|(?:requires|ensures|decreases|where|by)\b)")
CLAUSE = re.compile(r"\s*(requires|ensures|decreases)\b")
PLACE = re.compile(r"(?:note: )?(?:\./)?((?:src|specs|proofs)/\S+):(\d+):\d+: (error: .*|it is not proved .*|it says .*)")
VERDICT = re.compile(r"fn (\S+): (?:no proof|not proved)(.*)")
# The last line of a check that had a verdict, though the crate isn't proved.
NOT_PROVED = re.compile(r"logic=not-proved|only=\d+ (proved|holes)=\d+|rattle: no verdict")
# Errors that say nothing of a contract.
LOST = "a proof names what the edit took away"
LOST_NAME = re.compile(r"has no field|is not in scope|has no `|was not admitted")
LIMIT = re.compile(r"ran out of (stack|the (steps|memory))|outgrew the memory limit|stopped at the step limit")
TYPE = re.compile(r"\b(?:struct|enum)\s+(\w+)")
LAW = re.compile(r"(?m)^# law: ((?:src|proofs)/\S+)(?: (\S+))?$")
LAW_ABOVE = re.compile(r"(?m)^# law: crates/(\w+)/((?:src|proofs)/\S+)$")
FILE_OF = re.compile(r"file: crates/(\w+)/(.*)")


def module_of(path):
    """Returns the names of the module that a source file has."""
    return [it for it in path[len("src/") : -len(".rt")].split("/") if it not in ("lib", "main", "mod")]


class Function:
    """A function of a source file: its name, the type and the trait whose impl it stands in, and its lines from the first to the last.

    Its proof stands below one of its modules: the file's, or for a method that of the type.
    """

    def __init__(self, path, name, of, trait, first, last):
        self.path, self.name, self.of, self.trait, self.first, self.last = path, name, of, trait, first, last
        self.modules = [module_of(path)]

    def may_call_itself(self, text):
        """Returns whether its lines in its file's text have its name once more, as a call has it."""
        lines = "\n".join(text.split("\n")[self.first - 1 : self.last])
        return len(re.findall(rf"\b{self.name}\s*(?:::<|[(<])", lines)) > 1

    def called(self):
        """Returns the name by which a check asks for it."""
        return "::".join([*self.modules[-1], *[self.of + self.trait] * bool(self.of), self.name])

    def holds(self, path, line):
        return path == self.path and self.first <= line <= self.last

    def is_at(self, path, line):
        """Returns whether a place is in the function or in its proof."""
        inside = path[len("proofs/") :].split("/")[:-1] if path.startswith("proofs/") else None
        return self.holds(path, line) or inside is not None and self.is_in(inside, [])

    def is_in(self, parts, words):
        """Returns whether the parts of a path are those of this function, or of what stands inside it."""
        return any(parts[: len(it)] == it and self.is_below(parts[len(it) :], words) for it in self.modules)

    def is_below(self, parts, words):
        """Returns it of the parts after those of a module."""
        if self.of and not (parts and parts[0].startswith(self.of)):
            return False
        inner = parts[1:] if self.of else parts
        # A function that calls itself has its proof in a folder with a plus before its name.
        return inner[:1] in ([self.name], [f"+{self.name}"]) or inner[: len(words) + 1] == [*words, self.name]


def end_of(text, at, closes):
    """Returns where the braces that open next after a place end; `closes` says of that end whether it is the item's."""
    depth = 0
    while at < len(text):
        depth += (text[at] in "([{") - (text[at] in ")]}")
        if depth < 0 or text[at] == ";" and not depth:
            return at
        if text[at] == "}" and not depth and closes(at + 1):
            return at
        at += 1
    return at


def functions_of(path, text):
    """Returns the functions of a source's text without comments and strings."""
    line = lambda at: text.count("\n", 0, at) + 1
    impls = []
    for found in IMPL.finditer(text):
        end = end_of(text, found.end(), lambda at: True)
        head = text[found.end() : text.find("{", found.end())]
        head = re.sub(r"^\s*<[^{]*?>\s+(?=\w)", "", head)
        trait, _, last = re.split(r"\bwhere\b", head)[0].rpartition(" for ")
        name = re.search(r"(\w+)\s*(?:<|$|\s)", last.strip().split("::")[-1])
        impls.append((found.start(), end, name[1] if name else "", re.sub(r"\w+::|'\w+|<\w>|\W", "", trait)))
    functions = []
    for found in FUNCTION.finditer(text):
        end = end_of(text, found.end(), lambda at: not CLAUSES.match(text, at))
        of = [names for start, stop, *names in impls if start < found.start() < stop]
        begin = max(text.rfind(it, 0, found.start()) for it in ";{}") + 1
        begin += len(text[begin:]) - len(text[begin:].lstrip())
        functions.append(Function(path, found[1], *(of[-1] if of else ("", "")), line(begin), line(end)))
    return functions


class Sources:
    """The functions and constants of a crate."""

    def __init__(self, rt, crate):
        read = rt.rtlib.blanked(crate.folder)
        self.texts = {os.path.relpath(file, crate.folder): text for file, text in read.items() if file.endswith(".rt")}
        self.functions = [it for path, text in self.texts.items() for it in functions_of(path, text)]
        for path, text in self.texts.items():
            named = set(TYPE.findall(text))
            for it in self.functions:
                if it.of in named and module_of(path) not in it.modules:
                    it.modules.append(module_of(path))

    def at(self, path, line):
        """Returns the innermost function at a line, or None."""
        found = [it for it in self.functions if it.holds(path, line)]
        return max(found, key=lambda it: it.first, default=None)

    def naming(self, constant, of, seen=()):
        """Returns the functions that name a constant of a file, or a constant that names it."""
        word, found = re.compile(rf"\b{constant}\b"), []
        for path, text in self.texts.items():
            for number, line in enumerate(text.split("\n"), 1):
                if word.search(line) and (path == of or constant not in CONSTANT.findall(text)):
                    found.append(self.at(path, number))
                    others = [it for it in self.constants_at(path, number) if it not in (constant, *seen)]
                    found += [it for name in others for it in self.naming(name, path, (constant, *seen))]
        return found

    def constants_at(self, path, number):
        """Returns the constants of which a line is a part."""
        text, line = self.texts.get(path, ""), lambda at: text.count("\n", 0, at) + 1
        found = [(it[1], line(it.start()), line(text.find(";", it.end()))) for it in CONSTANT.finditer(text)]
        return [name for name, first, last in found if first <= number <= last]

    def changed(self, lines):
        """Returns the functions that a change of these lines changes, and those that name a constant which it changes."""
        found = [self.at(*it) for it in lines]
        for path, number in lines:
            found += [it for name in self.constants_at(path, number) for it in self.naming(name, path)]
        return list(dict.fromkeys(it for it in found if it))


def goals_of(line):
    """Returns the goals that a line of a check says aren't proved."""
    if VERDICT.match(line):
        return re.findall(r"`([^`]+)`", line.partition("did not prove")[2])
    return re.findall(r"(?:error: |it is not proved .*\()`([^`]+)`", line)[:1]


def emptiness(line):
    """Returns why a line of a check that names an error says nothing of a contract, or None."""
    goals = goals_of(line)
    if LOST_NAME.search(line):
        return LOST
    if LIMIT.search(line):
        return "a limit of the prover was met"
    if goals and all(it.startswith("overflow_") for it in goals):
        return "a cast or an overflow isn't proved"
    return None


class Edit:
    """An edit, the lines that it changes, and where it has to be refused: in the functions that it changes, or in a law."""

    def __init__(self, rt, crate, sources, file):
        self.label = f"{crate.name}/{os.path.basename(file)[: -len('.edit')]}"
        texts, self.bad = rt.read_edit(file, crate.folder)
        self.lines, self.functions, self.law, self.law_function, self.is_of_clauses = {}, [], None, None, False
        for path, text in (texts or {}).items():
            with open(f"{crate.folder}/{path}", encoding="utf-8") as it:
                was = it.read().split("\n")
            pairs = [(number, old, new) for number, (old, new) in enumerate(zip(was, text.split("\n")), 1) if old != new]
            self.lines.update({(path, number): new for number, _, new in pairs})
            self.is_of_clauses |= path.startswith("src/") and any(CLAUSE.match(it) for _, *both in pairs for it in both)
        if not self.bad:
            self.functions = sources.changed(self.lines)
            self.bad = self.place(file, crate.folder)

    def place(self, file, folder):
        """Notes the law of an edit of a definition, and returns what is bad in the edit, or None."""
        parts = {path.split("/")[0] for path, _ in self.lines}
        with open(file, encoding="utf-8") as it:
            named = LAW.search(it.read()) if "specs" in parts else None
        changes_law = named and any(path == named[1] for path, _ in self.lines)
        if "proofs" in parts and (not named or changes_law) or self.is_of_clauses:
            return "it changes a proof or a contract"
        if not self.functions:
            return "it changes no function, and no constant that a function names"
        if "specs" in parts:
            if not named or not os.path.isfile(f"{folder}/{named[1]}"):
                return "it changes a definition, and has no line '# law: FILE' with a file of proofs/ or src/"
            self.law, self.law_function = named[1], named[2]
        return None

    def meets(self, other):
        """Returns whether both change one function or one line, or one of them is tried by itself."""
        return bool(self.law or other.law or {*self.functions} & {*other.functions} or self.lines.keys() & other.lines.keys())

    def errors(self, said):
        """Returns the lines of a check's output that say where the edit has to be refused that something isn't proved.

        Each stands with its function, or the law, and its place.
        """
        for line in said:
            place, verdict = PLACE.match(line), VERDICT.match(line)
            if place and self.law and place[1] == self.law:
                yield self.law, line, f"{place[1]}:{place[2]}: {place[3]}"
            for it in self.functions if not self.law else ():
                if place and it.is_at(place[1], int(place[2])):
                    yield it, line, f"{place[1]}:{place[2]}: {place[3]}"
                elif verdict and "did not prove" in verdict[2] and it.is_in(verdict[1].split("::")[1:], ["fn"]):
                    yield it, line, f"{it.path}:{it.first}: {verdict[1]}{verdict[2]}"

    def refusal(self, said):
        """Returns the first error that refuses the edit, or None, and why the errors that there are don't, or None.

        Where an answer names what the edit took away, its goal is open for that alone.
        """
        errors, empty = list(self.errors(said)), None
        lost = {it for it, line, _ in errors if LOST_NAME.search(line)}
        for it, line, place in errors:
            why = LOST if it in lost and not place.startswith("proofs/") else emptiness(line)
            if not why:
                return place, None
            empty = empty or f"{why}, and nothing else: {place}"
        return None, empty


def rounds_of(edits):
    """Returns lists of edits of which no two meet, few of them: those that meet most others are put first."""
    rounds = []
    for edit in sorted(edits, key=lambda it: -sum(it.meets(other) for other in edits)):
        free = [it for it in rounds if not any(edit.meets(other) for other in it)]
        (free[0] if free else rounds.append([]) or rounds[-1]).append(edit)
    return rounds


class EditAbove(Edit):
    """An edit whose law stands in another crate, with the texts of the files that it changes, by crate."""

    def __init__(self, rt, crates, crate, file):
        self.label = label_of(crate, file)
        self.functions, self.texts = [], {}
        with open(file, encoding="utf-8") as it:
            text = it.read()
        named = LAW_ABOVE.search(text)
        self.above, self.law = crates.get(named[1]) if named else None, named and named[2]
        self.bad = self.read(rt, crates, crate, text) or self.placed(crates)

    def read(self, rt, crates, crate, text):
        """Reads what it changes, crate by crate, and returns what is bad in it, or None."""
        for name, part in parts_of(crate.name, text).items():
            if name not in crates:
                return f"there is no crate {name}"
            with tempfile.NamedTemporaryFile("w", encoding="utf-8", suffix=".edit") as it:
                it.write(part)
                it.flush()
                self.texts[name], bad = rt.read_edit(it.name, crates[name].folder)
            if bad:
                return bad
        return None

    def placed(self, crates):
        """Returns what is bad in its law and in the crates that it changes, or None."""
        if not self.above or not os.path.isfile(f"{self.above.folder}/{self.law}"):
            return "it has no line '# law: crates/NAME/FILE' with a file of proofs/ or src/"
        below = {it.name for it in self.above.below()}
        if not self.texts or not self.texts.keys() <= below:
            return "its law's crate doesn't stand on all crates that it changes"
        paths = [path for texts in self.texts.values() for path in texts]
        if not any(it.startswith("src/") for it in paths) or not any(it.startswith("specs/") for it in paths):
            return "it doesn't change both code and a definition"
        return None

    def write(self, crates):
        """Writes what it changes into the crates at hand."""
        for name, texts in self.texts.items():
            for path, text in texts.items():
                with open(f"{crates[name].folder}/{path}", "w", encoding="utf-8") as it:
                    it.write(text)

    def between(self, above):
        """Returns the crates from those that it changes up to the one of its law, the lowest first."""
        changed = lambda crate: crate.name in self.texts or any(it.name in self.texts for it in crate.below())
        return sorted([it for it in above.below() if changed(it)], key=lambda it: len(it.below()))


def parts_of(own, text):
    """Returns the text of an edit of several crates by crate; a file of no named crate is one of its own."""
    parts, name = {}, own
    for line in text.split("\n"):
        found = FILE_OF.fullmatch(line)
        if line.startswith("file: "):
            name, line = (found[1], f"file: {found[2]}") if found else (own, line)
        if not line.startswith("#"):
            parts[name] = parts.get(name, "") + line + "\n"
    return {name: part for name, part in parts.items() if part.strip()}


def is_above(file):
    """Returns whether an edit has a law in another crate, or names files of several."""
    with open(file, encoding="utf-8") as it:
        text = it.read()
    return bool(LAW_ABOVE.search(text) or any(FILE_OF.fullmatch(line) for line in text.split("\n")))


def try_above(rt, edit, tell, left):
    """Proves the crates below the law of an edit, and looks whether the law is still proved. `left` is the checkout at hand."""
    if edit.bad:
        return tell(edit, "bad edit", edit.bad)
    with copy_of_crates():
        crates = {it.name: it for it in kit.crates(rt)}
        above, between = crates[edit.above.name], edit.between(crates[edit.above.name])
        edit.write(crates)
        others = {it.name for it in above.below()} - {it.name for it in between}
        lacking = take_kept.take_all(rt, others, left) if hasattr(rt, "Kept") else others
        for it in [crates[name] for name in lacking] + between:
            it.out = sys.stderr
            if it.build_rlib(["--jobs", "1"], anew=False):
                return tell(edit, "refused elsewhere", f"crates/{it.name} isn't proved with it")
        return told_above(rt, above, edit, tell)


def told_above(rt, above, edit, tell):
    """Tells what a check of the law's crate says of an edit."""
    ran = rt.checked(above, {}, ["--jobs", "1"], None)
    said = ran.stdout.rstrip("\n").split("\n")
    why, empty = edit.refusal(said)
    if ran.returncode == 0:
        return tell(edit, "not refused", f"crates/{above.name} is still proved")
    if not NOT_PROVED.match(said[-1]):
        return tell(edit, "not tried", f"the check of crates/{above.name} ended with status {ran.returncode}")
    if why:
        return tell(edit, "refused", f"crates/{above.name}/{why}"[:160])
    first = next((it for it in said if PLACE.match(it)), said[0])
    return tell(edit, "not refused" if empty else "refused elsewhere", (empty or f"crates/{above.name}: {first}")[:160])


class Trials:
    """The trials of one crate's edits. Those that are quick ask a check for the functions alone that the edits change."""

    def __init__(self, rt, crate, sources, tell, is_quick):
        self.rt, self.crate, self.sources, self.tell, self.is_quick, self.room = rt, crate, sources, tell, is_quick, None

    def begin(self, edits):
        """Returns whether the crate, or of it what the edits change, is proved as it stands, and makes a room with what that left."""
        if not self.is_quick:
            kept = f"{self.crate.folder}/out/incremental"
            self.room = self.rt.seeded(self.crate, ["--jobs", "1"], kept if os.path.isdir(kept) else None)
            return self.room is not None
        self.room = tempfile.mkdtemp(prefix=f"rt-edits-{os.getpid()}-")
        os.mkdir(f"{self.room}/seed")
        return self.crate.is_built() or self.ran({}, self.asked(edits)).returncode == 0

    def asked(self, edits):
        """Returns the flags by which a check asks for the functions that the edits change, and for nothing else."""
        names = dict.fromkeys(it.called() for edit in edits for it in edit.functions)
        names.update(dict.fromkeys(edit.law_function for edit in edits if edit.law_function))
        return [word for name in names for word in ("--only", name)]

    def ran(self, texts, flags, crate=None):
        """Checks the crate with these texts in place of its own, by a quick trial over what the trials before it left.

        The crate at hand may stand in its place, with holes.
        """
        for _ in range(2):
            over = f"{self.room}/{'holes' if crate else 'seed' if self.is_quick else 'over'}"
            if not self.is_quick:
                self.rt.linked(f"{self.room}/seed", over)
            ran = self.rt.checked(crate or self.crate, texts, ["--jobs", "1", *flags], over)
            if not self.is_quick:
                shutil.rmtree(over, ignore_errors=True)
            if ran.returncode != -signal.SIGKILL:
                break
        return ran

    def texts_of(self, edits):
        """Returns the texts that these edits together make of the crate's, by file."""
        texts = {}
        for path in {path for edit in edits for path, _ in edit.lines}:
            with open(f"{self.crate.folder}/{path}", encoding="utf-8") as it:
                text = it.read().split("\n")
            for number, new in [(at[1], new) for edit in edits for at, new in edit.lines.items() if at[0] == path]:
                text[number - 1] = new
            texts[path] = "\n".join(text)
        return texts

    def checked(self, edits, is_whole):
        """Returns the output of a check with these edits, and what it came to."""
        texts = self.texts_of(edits)
        ran = self.ran(texts, [] if is_whole else self.asked(edits))
        if ran.returncode == 2 and not is_whole:
            # (it knows one of the functions by another name)
            ran = self.ran(texts, [])
        said = ran.stdout.rstrip("\n").split("\n")
        if ran.returncode == 0:
            return said, "proved"
        if ran.returncode == 1 and any(self.rt.unread(it, texts) for it in said):
            return said, "unread"
        if ran.returncode in (1, 3) and NOT_PROVED.match(said[-1]):
            return said, "not proved"
        return said, "unread" if ran.returncode == 1 else f"ended with status {ran.returncode}"

    def alone(self, edit, said, status, empty):
        """Tells what the check of an edit by itself came to, where it doesn't refuse the edit."""
        errors = [it for it in said if PLACE.match(it) or re.search(r"\berror\b", it)]
        first = (errors or said)[0][:160]
        if status == "proved":
            self.tell(edit, "not refused", "the crate is still proved")
        elif status == "unread":
            self.tell(edit, "bad edit", first)
        elif status != "not proved":
            self.tell(edit, "not tried", f"the check {status}")
        elif empty or any(LIMIT.search(it) for it in said):
            self.tell(edit, "not refused", (empty or "a limit of the prover was met")[:160])
        else:
            self.tell(edit, "refused elsewhere", first)

    def round(self, edits):
        """Tries edits in one check, and returns those of which it says nothing."""
        is_whole = not self.is_quick or any(it.law and not it.law_function for it in edits)
        said, status = self.checked(edits, is_whole)
        if len(edits) == 1 and status == "proved" and not is_whole:
            said, status = self.checked(edits, True)
        left = []
        for edit in edits:
            why, empty = edit.refusal(said) if status == "not proved" else (None, None)
            if why:
                self.tell(edit, "refused", why[:160])
            elif len(edits) == 1:
                self.alone(edit, said, status, empty)
            else:
                left.append(edit)
        return left

    def hollowed(self, edits):
        """Returns the crate with holes for the proofs of all functions but those that the edits change, and those of their laws."""
        kept = {*self.asked(edits)}
        named = [it for it in self.sources.functions if it.called() not in kept and not it.may_call_itself(self.sources.texts[it.path])]
        return holes.hollow(self.rt, self.crate, [it.called().split("::") for it in named], f"{self.room}/hollow")

    def over_holes(self, edits):
        """Tries edits in rounds that take what is called by its contract, and returns those that none refuses."""
        if not edits:
            return []
        crate, left = self.hollowed(edits), []
        os.mkdir(f"{self.room}/holes")
        for together in rounds_of(edits):
            texts = self.texts_of(together)
            ran = self.ran(texts, [*self.asked(together), "--allow-holes"], crate)
            said = ran.stdout.rstrip("\n").split("\n")
            is_read = ran.returncode in (1, 3) and NOT_PROVED.match(said[-1]) and not any(self.rt.unread(it, texts) for it in said)
            for edit in together:
                why, _ = edit.refusal(said) if is_read else (None, None)
                if why:
                    self.tell(edit, "refused", why[:160])
                else:
                    left.append(edit)
        return left

    def run(self, edits):
        """Tries the edits in rounds: those left of one with what else is left, until that settles none, and then each by itself.

        What is quick begins over holes.
        """
        for edit in [it for it in edits if it.bad]:
            self.tell(edit, "bad edit", edit.bad)
        left = [it for it in edits if not it.bad]
        try:
            if left and not self.begin(left):
                for edit in left:
                    self.tell(edit, "not tried", "the crate isn't proved as it stands")
                return
            quick = [it for it in left if self.is_quick and (it.law_function or not it.law)]
            left = [it for it in left if it not in quick] + self.over_holes(quick)
            while left:
                again = [it for edits in rounds_of(left) for it in self.round(edits)]
                if len(again) == len(left):
                    again = [it for edit in left for it in self.round([edit])]
                left = again
        finally:
            shutil.rmtree(self.room or "", ignore_errors=True)


def edits_in(crate, parts, named):
    """Returns the files of a crate's edits in these of its folders that are named, or all where none is."""
    found = []
    for part in parts:
        folder = f"{crate.folder}/{part}"
        names = sorted(os.listdir(folder)) if os.path.isdir(folder) else []
        found += [f"{folder}/{it}" for it in names if it.endswith(".edit")]
    return [it for it in found if not named or crate.name in named or label_of(crate, it) in named]


def label_of(crate, file):
    return f"{crate.name}/{os.path.basename(file)[: -len('.edit')]}"


def listed_in(file):
    """Returns the edits that a file names, NAME/EDIT, each with the promise that it guards.

    A file of another form than --listed has above is a ValueError.
    """
    found, crates, crate = {}, [], None
    with open(file, encoding="utf-8") as it:
        lines = it.read().split("\n")
    for number, line in enumerate(lines, 1):
        name, colon, promise = (it.strip() for it in line.partition(":"))
        label = f"{crate}/{name}"
        if not line.strip() or line.startswith("#"):
            continue
        is_crate = not line[0].isspace()
        if not colon or bool(promise) == is_crate or not re.fullmatch(r"\w+", name) or not is_crate and not crate:
            raise ValueError(f"{file}:{number}: a line is 'NAME:' of a crate, or below it, moved in, 'EDIT: ' and the promise that it guards")
        if is_crate and name in crates or not is_crate and label in found:
            raise ValueError(f"{file}:{number}: {name} stands there before")
        if is_crate:
            crates.append(name)
            crate = name
        else:
            found[label] = promise
    return found


def options_in(words):
    """Returns what the words ask for: the folders of edits, how many lanes, the names, and the file that lists edits."""
    parts, lanes, named, listed = ["wrong"], None, [], None
    words = iter(words)
    for word in words:
        if word == "--gate":
            parts = ["wrong", "must-fail"]
        elif word == "--lanes":
            lanes = int(next(words, "1"))
        elif word == "--listed":
            listed = next(words, "")
        elif word.startswith("-"):
            sys.exit(__doc__)
        else:
            named.append(word)
    if listed is not None and (named or not os.path.isfile(listed)):
        sys.exit(__doc__)
    return parts, lanes or (int(os.environ.get("RT_JOBS", "1")) if listed else 1), named, listed


@contextlib.contextmanager
def copy_of_crates():
    """Goes to a copy of the crates without what was built of them, and gives the folder that it came from."""
    top = os.getcwd()
    with tempfile.TemporaryDirectory(prefix="wrong-bodies-") as room:
        shutil.copytree("crates", f"{room}/crates", ignore=lambda at, names: ["out"] if os.path.dirname(at) == "crates" else [])
        for name in ("crates.txt", "HANDLES"):
            if os.path.isfile(name):
                shutil.copyfile(name, f"{room}/{name}")
        # It is the top of a repository.
        os.mkdir(f"{room}/.git")
        os.chdir(room)
        try:
            yield top
        finally:
            os.chdir(top)


def build(rt, crates, left):
    """Builds the libraries that crates stand on, by what `rt ci` kept or left in a folder, if there is one."""
    lacking = {it.name for crate in crates for it in [crate, *crate.below()]}
    if left and hasattr(rt, "Kept"):
        lacking = set(take_kept.take_all(rt, lacking, left))
    for crate in crates:
        if not left:
            rt.adopt(crate, is_alone=False)
        if any(it.name in lacking for it in crate.below()):
            kit.build_below(crate)


def main(words):
    parts, lanes, named, listed = options_in(words)
    rt = kit.load()
    if not listed:
        return tried(rt, parts, lanes, named, None)
    try:
        named = listed_in(listed)
    except ValueError as error:
        sys.exit(str(error))
    with copy_of_crates() as top:
        return tried(rt, parts, lanes, named, top)


def tried(rt, parts, lanes, named, left):
    """Tries the edits and prints what they come to; `left` is the folder where `rt ci` ran, where they are listed."""
    crates = {it: edits_in(it, parts, named) for it in kit.crates(rt)}
    crates = {crate: files for crate, files in crates.items() if files}
    known = {name for crate, files in crates.items() for name in (*[crate.name] * (not left), *(label_of(crate, it) for it in files))}
    lacking = [it for it in named if it not in known]
    if lacking or not crates:
        print(f"there is no edit to try of {' '.join(lacking) or 'any crate'}")
        print(f"0 refused, {len(lacking) or 1} not")
        return 1
    results, printing = {}, threading.Lock()

    def tell(edit, result, why):
        with printing:
            results[edit.label] = result
            print(f"{edit.label}: {result}: {why}", flush=True)

    above = [(crate, it) for crate, files in crates.items() for it in files if is_above(it)]
    crates = {crate: [it for it in files if not is_above(it)] for crate, files in crates.items()}
    crates = {crate: files for crate, files in crates.items() if files}

    def work(crate):
        sources = Sources(rt, crate)
        Trials(rt, crate, sources, tell, bool(left)).run([Edit(rt, crate, sources, it) for it in crates[crate]])

    with rt.ending(), ThreadPoolExecutor(lanes) as pool:
        build(rt, crates, left)
        # The largest first, so that none is left alone at the end.
        for it in [pool.submit(work, crate) for crate in sorted(crates, key=lambda it: -it.count(rb"\n"))]:
            it.result()
        named = {it.name: it for it in kit.crates(rt)} if above else {}
        for crate, file in above:
            try_above(rt, EditAbove(rt, named, crate, file), tell, left or os.getcwd())
    used = resource.getrusage(resource.RUSAGE_CHILDREN)
    refused = sum(it == "refused" for it in results.values())
    print(f"{(used.ru_utime + used.ru_stime) / 60:.1f} minutes of processor time")
    print(f"{refused} refused, {len(results) - refused} not")
    return 1 if len(results) > refused else 0


if __name__ == "__main__":
    sys.exit(main(sys.argv[1:]))
