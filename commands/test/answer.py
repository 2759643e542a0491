"""Where the answer goes beside the text: a folder with the files of each failure, and a file for machines."""
import json
import os
import shlex
from pathlib import Path
from urllib.parse import quote

from commands.record.named_layout import lay_out
from commands.test.judge import surroundings
from commands.test.sites import Site, name_of
from commands.test.syncs import Syncs
from commands.test.text import head

VERSION = 1
SCHEMA = "https://json.schemastore.org/sarif-2.1.0.json"
# The rules of SARIF's results.
RULES = {"missing-sync": "A crash may lose what a later call, or a mark, relies on: a sync is missing.", "no-sync-helps": "A crash leaves what the check refuses, and no sync helps."}


def keep(folder, answer, case, said, check):
    """Keeps in a folder the files of a case, what the check printed, and a script that shows it again."""
    os.makedirs(folder)
    seen = answer.log.at(case.cut, case.lost)
    os.mkdir(Path(folder, "files"))
    lay_out(seen.contents, Path(folder, "files"))
    Path(folder, "said").write_bytes(said)
    told = surroundings(seen, case.cut, case.choice())
    lines = [f"export {name}={shlex.quote(value)}" for name, value in told.items()]
    lines += ['export FILES="$(mktemp -d)"', 'cp -a "$(dirname "$0")/files/." "$FILES" && cd "$FILES"', f"sh -c {shlex.quote(check)}"]
    lines += ["status=$?", 'rm -rf "$FILES"', "exit $status"]
    Path(folder, "again").write_text("\n".join(["# Runs the check once more, on a copy of these files.", *lines, ""]))


def call_of(call, where):
    """A call for machines."""
    if call is None:
        return None
    return {"text": call.told, "calls": call.line, "process": call.process, **where(call)}


class Machine:
    """The answer as JSON. docs/RECOVERY.md has its fields."""

    def __init__(self, run, where):
        self.run, self.where, self.judge = run, where, run.judge

    def found(self, found):
        return {"cases": found.cases, "failing": len(found.failing), "losses": found.scope, "complete": found.complete}

    def shown(self, it, number):
        """What the check said of the first case of an answer."""
        case = it.first().shown
        marks, mark = it.log.marks(case.cut)
        judged = self.judge.judged[case.key]
        kept = self.run.kept(number)
        return {"cut": case.cut, "choice": case.choice(), "marks": marks, "mark": mark.decode(errors="replace"), "ended": judged.text(),
                "said": judged.said.decode(errors="replace"), "kept": kept or None}

    def site(self, it, number):
        """A sync that is missing."""
        fact, before = it.first(), [call_of(call, self.where) for call in it.instances.values()]
        useless = [{"call": call_of(call, self.where), "why": why} for call, why in Syncs(it.log, self.run.table).useless(fact, it.target())]
        return {"sync": "fsync", "of": it.kind, "name": name_of(it.log, it.target()), "before": before[0], "times": it.times(), "all": before, "cases": it.cases,
                "lost": [call_of(it.log.call(one), self.where) for one in fact.numbers()], "useless": useless, "check": self.shown(it, number)}

    def helpless(self, it, number):
        """A failure against which no sync helps."""
        fact = it.first()
        moved = it.moved and {"after": call_of(it.moved.after, self.where), "stay": it.moved.stay, "missing": [head(one) for one in it.moved.sites]}
        return {"why": it.kind, "after": call_of(it.log.call(fact.need), self.where), "cases": it.cases, "moved": moved,
                "lost": [call_of(it.log.call(one), self.where) for one in fact.numbers()], "check": self.shown(it, number)}

    def answer(self, status):
        """All of it, as values of JSON."""
        run, it = self.run, self.run.answer
        made = {"version": VERSION, "status": status, "table": run.table, "check": run.given.check, "program": run.source.made.program}
        made |= {"marks": it.log.passed[-1], "entries": len(it.log.entries), "explored": {**self.found(it.found), "runs": self.judge.runs}}
        numbered = list(enumerate(run.answers, 1))
        made["missing"] = [self.site(one, number) for number, one in numbered if isinstance(one, Site)]
        made["helpless"] = [self.helpless(one, number) for number, one in numbered if not isinstance(one, Site)]
        made["tried"] = it.cured and {**self.found(it.cured), "strict": it.strict and self.found(it.strict)}
        return made

    # SARIF

    def result(self, rule, text, call, lost):
        """A result of SARIF, at the line of a call where that is known."""
        here = location(call)
        made = {"ruleId": rule, "level": "error", "message": {"text": text}, "locations": [here] if here else []}
        made["relatedLocations"] = [{**place, "id": number, "message": {"text": it["text"]}} for number, it in enumerate(lost, 1) if (place := location(it))]
        return made

    def sarif(self, status):
        """The answer as SARIF 2.1.0."""
        it, results = self.answer(status), []
        for one in it["missing"]:
            of = f'"{one["name"]}"' if one["of"] == "file" else f'the folder {one["name"]}'.rstrip()
            text = f"fsync of {of} is missing before {one['before']['text']}: {one['lost'][0]['text']} may be lost."
            results.append(self.result("missing-sync", text, one["before"], one["lost"]))
        for one in it["helpless"]:
            after = one["after"] or {"text": "the beginning"}
            results.append(self.result("no-sync-helps", f"The check fails after {after['text']}, and no sync helps: {one['why']}.", one["after"], one["lost"]))
        driver = {"name": "crashbpf-test", "rules": [{"id": name, "shortDescription": {"text": text}} for name, text in RULES.items()]}
        return {"$schema": SCHEMA, "version": "2.1.0", "runs": [{"tool": {"driver": driver}, "results": results}]}


def location(call):
    """Where a call was made, as SARIF has it: below the folder at hand by a relative path."""
    if not call or not call.get("file"):
        return None
    path = Path(call["file"]).resolve()
    below = path.is_relative_to(Path.cwd())
    uri = quote(str(path.relative_to(Path.cwd()))) if below else path.as_uri()
    return {"physicalLocation": {"artifactLocation": {"uri": uri}, "region": {"startLine": call["line"]}}}


def refuse_unwritable(path):
    """Refuses a file that can't be written. What is there stays as it is; a pipe isn't opened before there is an answer."""
    if os.path.exists(path) and not os.path.isfile(path) and not os.path.isdir(path):
        return
    is_new = not os.path.lexists(path)
    with open(path, "ab"):
        pass
    if is_new:
        os.unlink(path)


def write_json(path, what):
    Path(path).write_text(json.dumps(what, indent=1) + "\n")
