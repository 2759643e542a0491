"""Calls of functions by a pointer as code: `ops[i].run(a, b)` becomes a choice among calls of the functions by their names.

    struct op { u32 kind; u64 (*run)(u64); };
    static const struct op ops[] = { { 1, first }, { 2, second } };

No function is called by a pointer in a program, and none has an address. So where the source takes the address of one, a number stands for
it, and a call compares its pointer with the numbers of all functions of its type. The pointer and each argument are computed once. With a
pointer that is none of these, a null pointer too, the run ends there.
"""
import re
from dataclasses import dataclass
from pathlib import Path

from commands.cc.functions import ARGUMENT, parts
from commands.cc.locals import TYPES_OF
from commands.cc.tables import NO_TYPES

WORD = re.compile(r"[A-Za-z_$]")
POINTER = "crashbpf_pointer_"
# The first number that stands for a function, and the distance between two. None is a place in memory, nor has one in its low half the number
# of a helper: clang takes a call of a number for that of a helper.
FIRST, STEP = (1 << 44) + 0x7F000000, 8
CONST = {"const", "__const", "__const__"}


@dataclass
class Site:
    """A call by a pointer: the tokens at which the pointer begins, of the bracket of the arguments and of the one that ends it, and the
    commas between the arguments; the function in which it stands, and its place."""

    first: int
    arguments: int
    last: int
    commas: list
    function: object
    file: str
    line: int

    def place(self, _source=None):
        return self.file, self.line

    def in_local(self):
        """Why it can't stand in a function that is LOCAL, and what helps."""
        return f"a call by a pointer, {Path(self.file).name}:{self.line}, is in a function that is LOCAL", "a switch there that calls each function by its name"

    def told(self):
        """What is said where it has become code."""
        return "the call by a pointer is code; by one that is no function's"


def sites_of(source, functions):
    """The calls by a pointer in these functions of a source, outer ones first."""
    names = pointer_names(source)
    found = []
    for function in functions:
        for at in range(function.body, function.end):
            first = source.word(at) == "(" and pointer_before(source, at, names)
            if first:
                end = source.closed(at)
                commas = [it for _, it in parts(source, at + 1, end - 1) if it < end - 1]
                token = source.tokens[first]
                found.append(Site(first, at, end - 1, commas, function, token.file, token.line))
    return sorted(found, key=lambda it: (it.first, -it.last))


def pointer_names(source):
    """The names of variables and parameters that are pointers to functions, by how they are declared."""
    own = {it.name for it in source.functions}
    types, found = set(), set()
    typedef = False
    for at in range(len(source.tokens)):
        word = source.word(at)
        typedef = word == "typedef" or typedef and source.word(at - 1) != ";"
        name = at + 1
        while source.word(name) == "*" or source.word(name) in CONST:
            name += 1
        if word == "(" and name > at + 1 and WORD.match(source.word(name)) and is_type(source, at - 1) and source.word(source.closed(at)) == "(":
            (types if typedef else found if not is_helper(source, source.closed(at)) else set()).add(source.word(name))
        elif typedef and WORD.match(word) and source.word(at + 1) == "(" and is_type(source, at - 1):
            types.add(word)
        elif word in types and WORD.match(source.word(name)):
            found.add(source.word(name))
    return found - own - types


def is_helper(source, at):
    """Whether a declarator whose parameters begin here is given a number: so clang has a helper."""
    at = source.closed(at)
    if (source.word(at), source.word(at + 1)) != ("=", "("):
        return False
    while source.word(at) not in (";", ""):
        at = source.closed(at) if source.word(at) == "(" else at + 1
    return source.word(at - 1).isdigit() and source.word(at - 1) != "0"


def is_type(source, at):
    """Whether a token may be the end of a type in front of a declarator."""
    return source.word(at) == "*" or bool(WORD.match(source.word(at))) and source.word(at) not in NO_TYPES


def pointer_before(source, at, names):
    """The token at which the pointer begins that is called by the bracket at this place; 0 where none is."""
    last = at - 1
    word, before = source.word(last), source.word(last - 1)
    if word == "]" or WORD.match(word) and is_field(source, last):
        return beginning(source, last)
    if word in names and not (WORD.match(before) and before not in NO_TYPES):
        return last
    if word == ")":
        first = opened(source, last)
        given = source.word(first + 1) == "*" and first + 2 < last
        return first if (given or has_field(source, first, last)) and not is_type(source, first - 1) else 0
    return 0


def has_field(source, first, last):
    """Whether a field is named between two brackets, which no cast does but one to the type of something."""
    return source.word(first + 1) not in TYPES_OF and any(WORD.match(source.word(at)) and is_field(source, at) for at in range(first, last))


def is_field(source, at):
    """Whether a name is that of a field, after `.` or `->`."""
    return source.word(at - 1) == "." or (source.word(at - 2), source.word(at - 1)) == ("-", ">")


def opened(source, at):
    """The bracket that is closed at this place."""
    depth = 0
    while at > 0:
        depth += (source.word(at) in (")", "]", "}")) - (source.word(at) in ("(", "[", "{"))
        if depth == 0:
            return at
        at -= 1
    return 0


def beginning(source, at):
    """The first token of what ends at this one: a name with its fields, indices and calls."""
    while True:
        while source.word(at) in ("]", ")"):
            first = opened(source, at)
            called = source.word(first) == "[" or WORD.match(source.word(first - 1)) and source.word(first - 1) not in NO_TYPES
            if not called and source.word(first - 1) not in ("]", ")"):
                return first
            at = first - 1
        if not is_field(source, at):
            return at
        at -= 2 if source.word(at - 1) == "." else 3


def edits_of(source, sites, end):
    """Edits that make choices of the calls, and numbers of the addresses; `end` answers a statement that ends the run, for a call."""
    taken = source.addresses() if sites else []
    numbers = {name: FIRST + STEP * at for at, name in enumerate(dict.fromkeys(source.word(it) for it in taken))}
    for at in taken:
        name = source.word(at)
        first = at - 1 if source.word(at - 1) == "&" else at
        yield source.tokens[first].start, source.tokens[at].end, f"((__typeof__({name}) *){numbers[name]}ull)"
    yield from declarations(source, sites, numbers)
    for site in sites:
        yield from edits_of_call(source, site, choice(site, numbers, end(site)))


def declarations(source, sites, names):
    """Edits that declare functions in front of the first function with a call that may mean them, where they come later."""
    first = min((it.function for it in sites), key=lambda it: it.declared, default=None)
    later = [it for it in source.functions if it.name in names and it.declared >= first.declared] if first else []
    tokens = source.tokens
    for it in later:
        text = source.text[tokens[it.declared].start : tokens[it.body].start]
        text = " ".join(line for line in text.split("\n") if not line.startswith("#"))
        yield tokens[first.declared].start, tokens[first.declared].start, f"{text}; "


def edits_of_call(source, site, chosen):
    """The edits of one call: what it computes stays where it stands, each in a variable."""
    tokens, some = source.tokens, site.last > site.arguments + 1
    variable = lambda number: f"__auto_type {ARGUMENT.format(number)} = ("
    yield tokens[site.first].start, tokens[site.first].start, f"({{ __auto_type {POINTER} = ("
    yield tokens[site.arguments].start, tokens[site.arguments].end, "); " + (variable(0) if some else "")
    for number, at in enumerate(site.commas, 1):
        yield tokens[at].start, tokens[at].end, f"); {variable(number)}"
    yield tokens[site.last].start, tokens[site.last].end, ("); " if some else "") + f"{chosen}; }})"


def choice(site, numbers, end):
    """The call that a pointer chooses, of the functions that have its type."""
    count = len(site.commas) + (site.last > site.arguments + 1)
    given = ", ".join(ARGUMENT.format(it) for it in range(count))
    text = ""
    for name, number in numbers.items():
        fits = f"__builtin_types_compatible_p(__typeof__(*{POINTER}), __typeof__({name}))"
        text += f"{fits} && {POINTER} == (__typeof__({POINTER})){number}ull ? __builtin_choose_expr({fits}, {name}, {POINTER})({given}) : "
    return f"{text}({{ {end} (__typeof__({POINTER}({given})))0; }})"
