"""Tables of constants as code: what `name[i]` is becomes a call of a function with a switch over all elements."""
import re
from dataclasses import dataclass

from commands.cc.program import broken

# More elements would be a program of thousands of slots.
MOST_ELEMENTS = 1024
SIZES = "crashbpf_sizes"
WORD = re.compile(r"[A-Za-z_$]")
# Words after which a name isn't declared.
NO_TYPES = {"return", "else", "case", "do", "sizeof", "goto"}


@dataclass
class Table:
    """An array of constants, its tokens from the first of its declaration to the one after it, and where it is known."""

    name: str
    declared: tuple
    at: int
    dimensions: int
    scope: tuple
    function: object
    new_name: str = ""
    sizes: tuple = ()

    def place(self, source):
        """Its file and line."""
        token = source.tokens[self.at]
        return token.file, token.line

    def in_local(self):
        """Why it can't be indexed in a function that is LOCAL, and what helps."""
        return in_local(self.name)


def in_local(name):
    """The same, of a table of this name."""
    return (
        f"the table {name} is indexed in a function that is LOCAL, by what may lie past its end",
        "test the index there with an answer that its caller tests: the function can't end the run",
    )


def tables_of(source):
    """The arrays of constants of a source, each declared for itself: static const u8 name[..] = ..;"""
    found = []
    for at, token in enumerate(source.tokens):
        if token.text != "const":
            continue
        function = next((it for it in source.functions if it.body < at < it.end), None)
        start = at
        while start > 0 and source.word(start - 1) not in (";", "{", "}", ")") and source.tokens[start - 1].file == token.file:
            start -= 1
        if function is not None and "static" not in (source.word(it) for it in range(start, at + 3)):
            continue
        table = declared(source, start, at, function)
        if table is not None and all(it.declared != table.declared for it in found):
            found.append(table)
    return found


def declared(source, start, at, function):
    """The array that is declared here, if it is one."""
    while WORD.match(source.word(at)) and source.word(at + 1) != "[":
        at += 1
    name, after = at, at + 1
    dimensions = 0
    while source.word(after) == "[":
        after = source.closed(after)
        dimensions += 1
    if not WORD.match(source.word(name)) or not dimensions or source.word(after) != "=":
        return None
    end = after + 1
    while end < len(source.tokens) and source.word(end) != ";":
        if source.word(end) == ",":
            return None
        end = source.closed(end) if source.word(end) in ("(", "[", "{") else end + 1
    scope = (end + 1, function.end if function else len(source.tokens))
    return Table(source.word(name), (start, end + 1), name, dimensions, scope, function)


def named(source, table):
    """The tokens that mean the table, or None where the name may mean something else too."""
    found = [at for at in range(*table.scope) if source.word(at) == table.name and source.word(at - 1) != "."]
    found = [at for at in found if (source.word(at - 2), source.word(at - 1)) != ("-", ">")]
    for at in found:
        before, after = source.word(at - 1), source.word(at + 1)
        typed = WORD.match(before) and before not in NO_TYPES
        pointer = before == "*" and WORD.match(source.word(at - 2)) and after in ("=", ";", ",", ")")
        if typed or pointer:
            return None
    return found


def edits_of(source, tables, end):
    """Edits that put calls in the place of what is indexed; `end` answers a statement that ends the run, for a table."""
    edits = []
    for table in tables:
        table.new_name = table.name if table.function is None else f"{table.name}_of_{table.function.name}"
        first, after = table.declared
        text = source.text[source.tokens[first].start : source.tokens[after - 1].end]
        uses = [at for at in named(source, table) if not inside(source, tables, at)]
        code = function_text(table, end(table)) if table.sizes else ""
        if table.function is None:
            place = source.tokens[after - 1].end
            edits.append((place, place, f" {code}"))
        else:
            place = source.tokens[table.function.declared].start
            middle = source.tokens[table.at].start - source.tokens[first].start
            text = text[:middle] + table.new_name + text[middle + len(table.name) :]
            text = " ".join(it for it in text.split("\n") if not it.startswith("#"))
            last = source.tokens[after - 1]
            edits.append((place, place, f"{text} {code} "))
            edits.append((source.tokens[first].start, last.end, f'\n# {last.line} "{last.file}"\n;'))
        for at in uses:
            edits += use_of(source, table, at)
    return edits


def inside(source, tables, at):
    """Whether a token stands in the declaration of a table."""
    return any(it.declared[0] <= at < it.declared[1] for it in tables)


def use_of(source, table, at):
    """The edits of one use: name[i][j] becomes name_at_(i, j); its address, or what has fewer indices, stays as it is."""
    token, ends = source.tokens[at], []
    before, second = source.word(at - 1), source.word(at - 2)
    address = before == "&" and not re.match(r"[\w$)\]&]", second)
    place = at + 1
    while source.word(place) == "[" and len(ends) < table.dimensions:
        after = source.closed(place)
        ends.append((place, after - 1))
        place = after
    if not table.sizes or len(ends) < table.dimensions or address:
        return [(token.start, token.end, table.new_name)]
    edits = [(token.start, token.end, f"{table.new_name}_at_")]
    for number, (opened, closed) in enumerate(ends):
        last = number == len(ends) - 1
        edits.append((source.tokens[opened].start, source.tokens[opened].end, ", " if number else "("))
        edits.append((source.tokens[closed].start, source.tokens[closed].end, ")" if last else ""))
    return edits


def function_text(table, end):
    """A function that answers the element of the indices."""
    name, sizes = table.new_name, table.sizes
    element = name + "[0]" * len(sizes)
    parameters = [f"i{number}_" for number in range(len(sizes))]
    past = " || ".join(f"{it} >= {size}" for it, size in zip(parameters, sizes))
    index, total = "0", 1
    for it, size in zip(parameters, sizes):
        index, total = f"({index}) * {size} + {it}", total * size
    elements = []
    for number in range(total):
        at, rest = "", number
        for size in reversed(sizes):
            at, rest = f"[{rest % size}]{at}", rest // size
        elements.append(f"return {name}{at};")
    cases = " ".join(f"case {number}: {it}" for number, it in enumerate(elements[:-1]))
    return (
        f"static inline __attribute__((__always_inline__, __unused__)) __typeof__({element}) {name}_at_("
        + ", ".join(f"unsigned long long {it}" for it in parameters)
        + f") {{ if ({past}) {{ {end} {elements[-1]} }} switch ({index}) {{ {cases} default: {elements[-1]} }} }}"
    )


def sizes_text(tables):
    """Text after a source from which `sizes_in` tells the dimensions of its tables."""
    words = []
    for table in tables:
        for number in range(table.dimensions):
            element = table.new_name + "[0]" * number
            words.append(f"sizeof({element}) / sizeof({element}[0])")
    return f'\nconst unsigned long long {SIZES}_[] __attribute__((__used__, __section__("{SIZES}"))) = {{ {", ".join(words)} }};\n'


def sizes_in(object_, tables):
    """Gives each table its dimensions, and answers those that aren't too large."""
    numbers = [row[0] for section in object_.sections if section.name == SIZES for row in object_.rows(section, "<Q")]
    if len(numbers) != sum(it.dimensions for it in tables):
        raise broken(f"its section {SIZES} isn't that of the tables")
    found = []
    for table in tables:
        table.sizes, numbers = tuple(numbers[: table.dimensions]), numbers[table.dimensions :]
        total = 1
        for size in table.sizes:
            total *= size
        if 0 < total <= MOST_ELEMENTS:
            found.append(table)
    return found
