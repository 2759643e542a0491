"""Constant tables of functions as code: a call `table[i](a, b)` becomes a choice among calls of the functions by their names.

    static u64 (*const table[])(u64) = { first, second, [4] = other };

No function is called by a pointer in a program. The table is one of which nothing is used but calls of its elements and its size, so it
never changes. The index and each argument are computed once. With an index at which no function stands, beyond the table too, the run ends
there, as where a table of constants is indexed past its end.
"""
import re
from dataclasses import dataclass

from commands.cc.tables import NO_TYPES, in_local, named

WORD = re.compile(r"[A-Za-z_$]")
ATTRIBUTES = {"__attribute__", "__attribute"}
NULLS = (["0"], ["(", "void", "*", ")", "0"])
INDEX, ARGUMENT = "crashbpf_index_", "crashbpf_argument_{}_"


@dataclass
class FunctionTable:
    """A table: its name, where that is declared, where it is known, and its elements, the last of which counts: the first and the last
    index, as text, and the function or none."""

    name: str
    file: str
    line: int
    scope: tuple
    elements: list

    def place(self, _source=None):
        return self.file, self.line

    def in_local(self):
        """Why it can't be called in a function that is LOCAL, and what helps."""
        return in_local(self.name)

    def told(self):
        """What is said where its calls have become code."""
        return f"calls by the table {self.name} are code; by an index without a function"


@dataclass
class Call:
    """A call of an element: its tokens where it begins, the bracket of the index, that of the arguments, and the one that ends it; and the
    commas between the arguments."""

    first: int
    index: int
    arguments: int
    last: int
    commas: list


def function_tables(source):
    """The tables of functions of a source, each with all its calls, of which nothing else is used."""
    names = {it.name for it in source.functions}
    found = [declared(source, at, names) for at in range(len(source.tokens)) if source.word(at + 1) == "[" and WORD.match(source.word(at))]
    with_calls = [(it, calls_of(source, it)) for it in found if it]
    return [(table, calls) for table, calls in with_calls if calls]


def declared(source, at, names):
    """The table that is declared here with its elements, or none."""
    after = source.closed(at + 1)
    if source.word(after) == ")" and source.word(after + 1) == "(":
        after = source.closed(after + 1)
    while source.word(after) in ATTRIBUTES:
        after = source.closed(after + 1)
    if (source.word(after), source.word(after + 1)) != ("=", "{"):
        return None
    end = source.closed(after + 1)
    elements = elements_of(source, after + 2, end - 1, names)
    if source.word(end) != ";" or not any(function for _, _, function in elements or []):
        return None
    function = next((it for it in source.functions if it.body < at < it.end), None)
    token = source.tokens[at]
    return FunctionTable(token.text, token.file, token.line, (end + 1, function.end if function else len(source.tokens)), elements)


def parts(source, at, end):
    """What stands between commas, as pairs of tokens: the first and the one after."""
    start = at
    while at < end:
        if source.word(at) == ",":
            yield start, at
            start = at = at + 1
        else:
            at = source.closed(at) if source.word(at) in ("(", "[", "{") else at + 1
    if start < end:
        yield start, end


def elements_of(source, at, end, names):
    """The elements of an initializer, or none where one of them is neither a function nor a null pointer."""
    found, base, after_base = [], "", 0
    for start, after in parts(source, at, end):
        first = last = f"{base} + {after_base}" if base and after_base else base or str(after_base)
        if source.word(start) == "[":
            closed = source.closed(start)
            first, last = bounds(source, start + 1, closed - 1)
            base, after_base = last, 0
            start = closed + 1 if source.word(closed) == "=" else after
        words = bare([source.word(it) for it in range(start, after)])
        if words not in NULLS and (len(words) != 1 or words[0] not in names):
            return None
        after_base += 1
        found.append((first, last, None if words in NULLS else words[0]))
    return found


def bounds(source, at, end):
    """The first and the last index of a designator, as text."""
    dots = next((it for it in range(at, end - 2) if [source.word(it + more) for more in range(3)] == ["."] * 3), None)
    text = lambda first, after: "(" + " ".join(source.word(it) for it in range(first, after)) + ")"
    return (text(at, end), text(at, end)) if dots is None else (text(at, dots), text(dots + 3, end))


def bare(words):
    """The words of an element without brackets around it and `&` in front."""
    while words[:1] == ["&"] or len(words) > 2 and words[0] == "(" and words[-1] == ")" and words != ["(", "void", "*", ")", "0"]:
        words = words[1:] if words[0] == "&" else words[1:-1]
    return words


def calls_of(source, table):
    """The calls of a table's elements, or none where the table is used in another way, or its name may mean something else."""
    uses = named(source, table)
    found = []
    for at in uses or []:
        if "sizeof" in (source.word(at - 1), source.word(at - 2) if source.word(at - 1) == "(" else ""):
            continue
        call = call_at(source, at)
        if call is None:
            return None
        found.append(call)
    return found


def call_at(source, at):
    """The call of an element: table[i](..) or (*table[i])(..); none for anything else."""
    if source.word(at + 1) != "[":
        return None
    first, after = at, source.closed(at + 1)
    if source.word(after) == ")" and (source.word(at - 2), source.word(at - 1)) == ("(", "*"):
        first, before = at - 2, source.word(at - 3)
        if before == "*" or WORD.match(before) and before not in NO_TYPES:
            return None
        after += 1
    if source.word(after) != "(":
        return None
    end = source.closed(after)
    commas = [it for _, it in parts(source, after + 1, end - 1) if it < end - 1]
    return Call(first, at + 1, after, end - 1, commas)


def edits_of(source, tables, end):
    """Edits that make choices of the calls; `end` answers a statement that ends the run, for a table."""
    for table, calls in tables:
        for call in calls:
            yield from edits_of_call(source, table, call, end(table))


def edits_of_call(source, table, call, end):
    """The edits of one call: what it computes stays where it stands, each in a variable."""
    tokens = source.tokens
    count = len(call.commas) + (call.last > call.arguments + 1)
    variable = lambda number: f"__auto_type {ARGUMENT.format(number)} = ("
    yield tokens[call.first].start, tokens[call.index].end, f"({{ unsigned long long {INDEX} = ("
    closing = source.closed(call.index) - 1
    yield tokens[closing].start, tokens[call.arguments].end, "); " + (variable(0) if count else "")
    for number, at in enumerate(call.commas, 1):
        yield tokens[at].start, tokens[at].end, f"); {variable(number)}"
    given = ", ".join(ARGUMENT.format(it) for it in range(count))
    yield tokens[call.last].start, tokens[call.last].end, ("); " if count else "") + f"{choice(table, given, end)}; }})"


def choice(table, given, end):
    """The call that an index chooses. Of several elements of one index the last counts."""
    some = next(function for _, _, function in table.elements if function)
    other = f"({{ {end} (__typeof__({some}({given})))0; }})"
    text = ""
    for first, last, function in reversed(table.elements):
        test = f"{INDEX} == {first}" if first == last else f"{INDEX} >= {first} && {INDEX} <= {last}"
        text += f"{test} ? {f'{function}({given})' if function else other} : "
    return text + other
