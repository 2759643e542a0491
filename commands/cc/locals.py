"""Locals that are too large for the stack: each gets a place in memory instead, where the program has guards.

The stack has 512 bytes for all functions that are inlined together. A local array or struct becomes a static variable. There is one of it
for each declaration, and that is enough: no function calls itself, so that no two uses of one local are there at a time. Its initializer
becomes code that stands where the declaration stood, and gives it its whole value whenever the run comes there, as C says. One that is
`const`, and whose initializer is constant, keeps it: its value is never another. Locals of a function that may be called while it runs
stay on the stack: a compiler may make a loop of one that calls itself, and inline one that is called by a pointer.

Nothing is known of types here. How large a local is, the compiler says; which bytes an initializer gives, its object file has.
"""
import re
from dataclasses import dataclass, field, replace

from commands.cc.program import NoProgram

WORD = re.compile(r"[A-Za-z_$]")
NUMBERS = {"void", "char", "short", "int", "long", "float", "double", "signed", "unsigned", "__signed__", "_Bool", "__int128"}
QUALIFIERS = {"const", "__const", "__const__", "volatile", "__volatile__", "restrict", "__restrict", "__restrict__", "register", "auto", "__extension__"}
CONST = {"const", "__const", "__const__"}
# Not in front of a static variable.
AUTOMATIC = {"register", "auto"}
TAGGED = {"struct", "union", "enum"}
TYPES_OF = {"typeof", "__typeof__", "__typeof"}
ATTRIBUTES = {"__attribute__", "__attribute", "_Alignas"}
# Words with which a statement begins that declares no local of a function's own.
NO_LOCALS = {"static", "extern", "typedef", "_Thread_local", "__thread", "return", "goto", "break", "continue", "asm", "__asm__", "__asm"}
NO_LOCALS |= {"_Static_assert", "__label__", "sizeof", "else", "if", "while"}
# How the compiler says how large a local is: number, bytes and elements of each as the lengths of an array, in a type that it prints.
PROBE = " char (*crashbpf_{number}_)[{number} + 1][sizeof({name})][{count}] = 1;"
PROBED = re.compile(r"\(\*\)\[(\d+)\]\[(\d+)\]\[(\d+)\]")
ERROR = re.compile(r"(?m)^(.+?):(\d+):\d+: error:")
IMAGE = "crashbpf_image_{number}"
ALIGNED = " __attribute__((__aligned__(8)))"
# Locals of as many bytes go to memory: at first these, and where the stack is still too small all other arrays and structs.
LEAST = (64, 9)
ROUNDS = 8
# The most bytes that one call sets to zeros.
MOST_ZEROED = 512


@dataclass
class Local:
    """A local: the tokens of its declarator, its name, its first dimension, its initializer, and what the compiler says of it."""

    name: str
    at: int
    begin: int
    end: int
    dimension: tuple
    equals: object
    declaration: object
    number: int = 0
    size: int = 0
    count: int = 1
    # The bytes of its initializer, where these are constant.
    image: object = None

    def is_const(self):
        """Whether it may not be changed: the last of its types is const."""
        source = self.declaration.source
        stars = [at for at in range(self.begin, self.at) if source.word(at) == "*"]
        first, end = (stars[-1], self.at) if stars else (self.declaration.first, self.declaration.types)
        return any(source.word(at) in CONST for at in range(first, end))

    def is_pointer(self):
        """Whether it is a pointer, or an array of pointers."""
        return any(self.declaration.source.word(at) == "*" for at in range(self.begin, self.at))

    def text(self):
        """Its declarator, with the number of its elements."""
        last = self.end if self.equals is None else self.equals
        if self.dimension is None or self.dimension[1] - self.dimension[0] > 2:
            return self.declaration.slice(self.begin, last)
        opened = self.dimension[0]
        return f"{self.declaration.slice(self.begin, opened)}[{self.count}]{self.declaration.slice(opened + 2, last)}"

    def initializer(self):
        """The tokens of its initializer, first and the one after."""
        return (self.equals + 1, self.end)


@dataclass
class Declaration:
    """A statement that declares locals: its first token, the one after its types, its semicolon, and the function."""

    source: object
    first: int
    types: int
    last: int
    function: object
    locals: list = field(default_factory=list)

    def slice(self, start, end):
        """The text of tokens, in one line."""
        if start >= end:
            return ""
        tokens = self.source.tokens
        lines = self.source.text[tokens[start].start : tokens[end - 1].end].split("\n")
        return " ".join(it for it in lines if not it.startswith("#"))

    def place(self):
        return self.source.place(self.first)

    def can_move(self):
        """Whether its text can be written anew, declarator by declarator."""
        words = [self.source.word(at) for at in range(self.first, self.last)]
        if any(words[at : at + 2] == ["(", "{"] for at in range(len(words))):
            return False
        return len(self.locals) == 1 or "{" not in words[: self.types - self.first]


def after_types(source, at, end):
    """The token after the types with which a declaration begins, or none where it begins with none."""
    typed = False
    while at < end:
        word = source.word(at)
        if word in NO_LOCALS:
            return None
        if word in QUALIFIERS:
            at += 1
        elif word in ATTRIBUTES:
            at = source.closed(at + 1)
        elif word in NUMBERS:
            typed, at = True, at + 1
        elif word in TYPES_OF:
            typed, at = True, source.closed(at + 1)
        elif word in TAGGED:
            typed, at = True, after_tag(source, at + 1)
        elif not typed and WORD.match(word) and (WORD.match(source.word(at + 1)) or source.word(at + 1) == "*"):
            typed, at = True, at + 1
        else:
            break
    return at if typed else None


def after_tag(source, at):
    """The token after a struct's attributes, its name and its members."""
    while source.word(at) in ATTRIBUTES:
        at = source.closed(at + 1)
    if WORD.match(source.word(at)):
        at += 1
    return source.closed(at) if source.word(at) == "{" else at


def declaration(source, first, last, function):
    """The declaration that a statement is, or none."""
    types = after_types(source, first, last)
    if types is None:
        return None
    found, at = Declaration(source, first, types, last, function), types
    while at < last:
        local, at = declarator(source, at, last, found)
        if local is None or at < last and source.word(at) != ",":
            return None
        found.locals.append(local)
        at += 1
    return found if found.locals else None


def declarator(source, at, last, own):
    """A name with its dimensions and its initializer, and the token after it; none for what is in parentheses, as a function."""
    begin = at
    while source.word(at) == "*" or source.word(at) in QUALIFIERS | ATTRIBUTES:
        at = source.closed(at + 1) if source.word(at) in ATTRIBUTES else at + 1
    name, at, dimension = at, at + 1, None
    if not WORD.match(source.word(name)):
        return None, at
    while source.word(at) == "[":
        after = source.closed(at)
        dimension, at = dimension or (at, after), after
    while source.word(at) in ATTRIBUTES:
        at = source.closed(at + 1)
    equals = at if source.word(at) == "=" else None
    while equals is not None and at < last and source.word(at) != ",":
        at = source.closed(at) if source.word(at) in ("(", "[", "{") else at + 1
    return Local(source.word(name), name, begin, at, dimension, equals, own), at


def circular(source, functions):
    """The functions of these that may be called while they run. One that is called by a pointer may be called from anywhere."""
    taken = set() if source.by_names else {source.word(at) for at in source.addresses()}
    called = {it.name: taken | {source.word(at) for at in source.calls(it)} for it in functions}
    return [it for it in functions if reaches(called, it.name)]


def reaches(called, name):
    """Whether a function leads to itself."""
    seen, left = set(), [name]
    while left:
        for it in called.get(left.pop(), set()) - seen:
            seen.add(it)
            left.append(it)
    return name in seen


def locals_of(source, functions):
    """The arrays and structs among the locals of these functions."""
    found = []
    for first, last in source.statements:
        function = next((it for it in functions if it.body < first < it.end), None)
        own = declaration(source, first, last, function) if function else None
        for it in own.locals if own else []:
            if it.dimension or not it.is_pointer():
                it.number = len(found)
                found.append(it)
    return found


def structs_of(source, functions):
    """The structs that these functions take and answer, as locals: a parameter by its name, an answer by its type."""
    found = []
    for it in functions:
        opened = next(at for at in range(it.declared, it.body) if source.word(at) == it.name) + 1
        types = [at for at in range(it.declared, opened - 1) if source.word(at) in TAGGED]
        if types and source.word(opened - 2) != "*":
            answer = " ".join(source.word(at) for at in range(types[0], opened - 1))
            found.append(Local(answer, opened - 1, opened - 1, opened, None, None, Declaration(source, opened - 1, opened - 1, it.body, it)))
        for first, after in parameters(source, opened):
            own = declaration(source, first, after, it)
            found += [replace(local, declaration=replace(own, last=it.body)) for local in (own.locals if own else []) if not local.is_pointer() and not local.dimension]
    for number, it in enumerate(found):
        it.number = number
    return found


def parameters(source, opened):
    """The parameters in these brackets, as pairs of tokens: the first and the one after."""
    start = at = opened + 1
    end = source.closed(opened) - 1
    while at < end:
        at = source.closed(at) if source.word(at) in ("(", "[", "{") else at + 1
        if at >= end or source.word(at) == ",":
            yield start, at
            start = at = at + 1


def probes(source, locals_):
    """Edits after which the compiler says how large each local is."""
    for it in locals_:
        place = source.tokens[it.declaration.last].end
        count = f"sizeof({it.name}) / sizeof(({it.name})[0])" if it.dimension else "1"
        yield place, place, PROBE.format(number=it.number, name=it.name, count=count)


def measured(locals_, said):
    """The locals whose sizes a compiler said; an array whose length is a variable has none."""
    by_number = {int(number) - 1: (int(size), int(count)) for number, size, count in PROBED.findall(said)}
    found = [it for it in locals_ if it.number in by_number]
    for it in found:
        it.size, it.count = by_number[it.number]
    return found


class Moved:
    """The locals that get a place in memory: those of at least that many bytes."""

    def __init__(self, source, locals_, functions, compiler):
        self.source, self.compiler, self.all = source, compiler, locals_
        self.again = again = circular(source, functions)
        self.able = [it for it in locals_ if it.size >= LEAST[-1] and it.declaration.can_move() and it.declaration.function not in again]
        self.least = LEAST[0] if any(it.size >= LEAST[0] for it in self.able) else LEAST[-1]

    def locals(self):
        return [it for it in self.able if it.size >= self.least]

    def more(self):
        """Takes smaller ones too; whether there are such."""
        before, self.least = self.locals(), LEAST[-1]
        return len(self.locals()) > len(before)

    def edits(self, locals_, statement):
        """Edits that put in the place of the declarations of these what `statement` answers for each."""
        declarations = {it.declaration.first: it.declaration for it in locals_}
        for own in declarations.values():
            types = own.slice(own.first, own.types)
            parts = [statement(it) if it in locals_ else f"{types} {own.slice(it.begin, it.end)};" for it in own.locals]
            start, last = self.source.tokens[own.first].start, self.source.tokens[own.last]
            resumed = f'\n# {last.line} "{last.file}"\n' if "\n" in self.source.text[start : last.end] else ""
            yield start, last.end, " ".join(parts) + resumed

    def types(self, local, changes):
        """The types of a local as of a static one, which may be changed or not."""
        own, parts = local.declaration, []
        gone = AUTOMATIC | CONST if changes and not local.is_pointer() else AUTOMATIC
        at = own.first
        while at < own.types:
            start = at
            while at < own.types and self.source.word(at) not in gone:
                at = self.source.closed(at) if self.source.word(at) in ("(", "{") else at + 1
            parts.append(own.slice(start, at))
            at += 1
        return " ".join(parts)

    def with_image(self, local):
        """The declaration of a static variable, in a section by which its first bytes are found."""
        text = f"static {self.types(local, False)} {local.text()}"
        if local.equals is None or local.image is False:
            return f"{text};"
        name = IMAGE.format(number=local.number)
        given = local.declaration.slice(*local.initializer())
        return f'{text} __attribute__((__used__, __section__("{name}"))) = {given};'

    def static(self, local):
        """The declaration of a static variable, and what gives it its value."""
        given = local.declaration.slice(*local.initializer()) if local.equals is not None else ""
        if given and local.image is not False and local.is_const():
            return f"static {self.types(local, False)} {local.text()}{ALIGNED} = {given};"
        text = without_const(local.text()) if local.is_const() else local.text()
        return f"static {self.types(local, True)} {text}{ALIGNED}; {self.value(local)}"

    def value(self, local):
        """Statements that give a local the value of its initializer."""
        if local.equals is None:
            return ""
        if isinstance(local.image, bytes):
            return self.zeros(local) + words_text(local)
        first, end = local.initializer()
        if self.source.word(first) != "{":
            return f"{local.name} = {local.declaration.slice(first, end)};"
        return self.zeros(local) + " ".join(self.elements(local, first, end))

    def zeros(self, local):
        """Statements that make all bytes of a local zeros."""
        parts = [(at, min(MOST_ZEROED, local.size - at)) for at in range(0, local.size, MOST_ZEROED)]
        return "".join(self.compiler.zeros(f"(char *)&{local.name} + {at}", length) + " " for at, length in parts)

    def elements(self, local, first, end):
        """The assignments of an initializer that isn't constant: of elements in their order, or of members by their names."""
        source, at, place, kinds = self.source, first + 1, 0, set()
        while at < end - 1:
            kinds.add(source.word(at) in (".", "["))
            if len(kinds) > 1:
                raise NotTold(local)
            start = at
            while at < end - 1 and source.word(at) != ",":
                at = source.closed(at) if source.word(at) in ("(", "[", "{") else at + 1
            yield self.element(local, start, at, place)
            place += 1
            at += 1

    def element(self, local, start, end, place):
        """One of them; NoProgram where it can't be told what it is of."""
        source = self.source
        named = source.word(start) in (".", "[")
        equals = next((at for at in range(start, end) if source.word(at) == "="), None) if named else None
        value = start if equals is None else equals + 1
        if source.word(value) == "{" or not named and local.dimension is None:
            raise NotTold(local)
        target = f"{local.name}{local.declaration.slice(start, equals)}" if named else f"{local.name}[{place}]"
        return f"{target} = {local.declaration.slice(value, end)};"


class NotTold(NoProgram):
    """An initializer that can't be written as assignments."""

    def __init__(self, local):
        super().__init__(f"the initializer of {local.name} can't be told apart")
        self.local = local


def can_be_told(moved, local):
    """Whether the initializer of a local becomes bytes, or assignments."""
    try:
        moved.static(local)
        return True
    except NotTold:
        return False


def without_const(text):
    """A declarator whose pointers may be changed."""
    return re.sub(r"\b(const|__const|__const__)\b", "", text)


def words_text(local):
    """Stores of the words of a local that aren't zeros."""
    found = []
    for at, size in pieces(local.size):
        value = int.from_bytes(local.image[at : at + size], "little")
        if value:
            found.append(f"*({KINDS[size]} *)((char *)&{local.name} + {at}) = {value}ull;")
    if not found:
        return ""
    kinds = "".join(f"typedef unsigned {c} __attribute__((__may_alias__)) {KINDS[size]}; " for size, c in C_KINDS.items())
    return f"{{ {kinds}{' '.join(found)} }}"


KINDS = {8: "crashbpf_8_", 4: "crashbpf_4_", 2: "crashbpf_2_", 1: "crashbpf_1_"}
C_KINDS = {8: "long long", 4: "int", 2: "short", 1: "char"}


def pieces(length):
    """Where the words of 8, 4, 2 and 1 bytes begin that make up this length, and their sizes."""
    at = 0
    for size in KINDS:
        while length - at >= size:
            yield at, size
            at += size


def take_images(moved, object_):
    """Gives each local the bytes of its initializer; False stays for one that isn't constant, or has addresses and is changed."""
    for it in moved.able:
        if it.equals is None or it.image is False:
            continue
        name = IMAGE.format(number=it.number)
        numbers = [at for at, section in enumerate(object_.sections) if section.name == name]
        if numbers and not list(object_.filled(numbers[0])):
            it.image = object_.content(object_.sections[numbers[0]])[: it.size].ljust(it.size, b"\0")
        else:
            it.image = bool(numbers) and it.is_const()


def in_lines(moved, said):
    """The locals with an initializer in whose lines a compiler found an error."""
    source, found = moved.source, []
    for file, line in ERROR.findall(said):
        for it in moved.able:
            first, last = source.tokens[it.declaration.first], source.tokens[it.declaration.last]
            same = first.file.rpartition("/")[2] == file.rpartition("/")[2]
            if it.equals is not None and same and first.line <= int(line) <= last.line and it not in found:
                found.append(it)
    return found
