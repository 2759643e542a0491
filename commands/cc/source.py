"""A C file after the preprocessor: its functions and loops, and the same text with other attributes and with turns.

Nothing is known of types: a function is told by its shape, a loop by its word. The line markers of the preprocessor
(`# 12 "checker.c"`) stay where they are, so each place keeps its file and line.
"""
import re
from dataclasses import dataclass

from commands.cc.locals import declaration
from commands.cc.program import Refusal
from commands.cc.tables import NO_TYPES

TOKEN = re.compile(
    r"""(?P<marker>^\#[^\n]*)|(?P<space>\s+)|(?P<word>[A-Za-z_$][\w$]*)|(?P<number>\.?\d(?:[eEpP][+-]|[\w.])*)"""
    r"""|(?P<text>"(?:\\.|[^"\\\n])*"|'(?:\\.|[^'\\\n])*')|(?P<sign>.)""",
    re.M | re.S,
)
MARKER = re.compile(r'#\s*(?:line\s+)?(\d+)(?:\s+"((?:\\.|[^"\\])*)")?')
CLOSES = {"(": ")", "[": "]", "{": "}"}
# Words in front of parentheses that are no parameters.
NO_NAMES = {"__attribute__", "__attribute", "asm", "__asm__", "__asm", "_Alignas", "typeof", "__typeof__", "__typeof", "_Static_assert"}
LOOPS = {"for", "while", "do"}
# From here on a compiler knows of a number only what its type says, and has it in a whole register where it is unsigned.
KEEP = (
    "if (sizeof(NAME) < 8 && (__typeof__(NAME))-1 > 0) { "
    "unsigned long long kept_ = (unsigned long long)(NAME); __asm__ volatile(\"\" : \"+r\"(kept_)); "
    "if (kept_ > (__typeof__(NAME))-1) __builtin_unreachable(); NAME = (__typeof__(NAME))kept_; "
    "} else __asm__ volatile(\"\" : \"+r\"(NAME));"
)


class Unread(Refusal):
    """A place that the parser makes nothing of."""


@dataclass
class Token:
    text: str
    start: int
    end: int
    file: str
    line: int


@dataclass
class Function:
    name: str
    declared: int  # tokens: where its declaration begins, its body, and where that ends
    body: int
    end: int


@dataclass
class Loop:
    word: str
    file: str
    line: int
    last_line: int
    body: int  # the token with which the body begins
    condition: tuple  # the tokens of the condition: first, and the one after
    tokens: tuple
    function: str

    def place(self):
        return (self.file, self.line)

    def has(self, file, line):
        return self.file == file and self.line <= line <= self.last_line


def tokens_of(text):
    """Returns the tokens of a preprocessed text, each with its file and line."""
    found, file, line = [], "", 1
    for it in TOKEN.finditer(text):
        if it.lastgroup == "marker":
            marker = MARKER.match(it[0])
            if marker:
                line, file = int(marker[1]) - 1, file if marker[2] is None else marker[2]
            continue
        if it.lastgroup != "space":
            found.append(Token(it[0], it.start(), it.end(), file, line))
        line += it[0].count("\n")
    return found


class Source:
    """The text, its functions, the loops in them, outer ones in front of inner ones, and their statements: the first token of each that has
    no other one in it, and its semicolon."""

    def __init__(self, text):
        self.text = text
        self.tokens = tokens_of(text)
        self.functions, self.loops, self.statements = [], [], []
        # Whether each call names its function.
        self.by_names = False
        try:
            self.outside()
        except RecursionError:
            raise Unread("its brackets stand too deep within each other") from None

    def word(self, at):
        return self.tokens[at].text if at < len(self.tokens) else ""

    def place(self, at):
        """The file, without folders, and the line of a token, as refusals name them."""
        token = self.tokens[at]
        return f"{token.file.rpartition('/')[2]}:{token.line}"

    def function_at(self, file, line):
        """The function in whose lines this place is, or none."""
        for it in self.functions:
            body, end = self.tokens[it.body], self.tokens[it.end - 1]
            if body.file.rpartition("/")[2] == file.rpartition("/")[2] and self.tokens[it.declared].line <= line <= end.line:
                return it
        return None

    def own_name(self, at, names):
        """Whether a token is one of these names, and no field of that name."""
        return self.word(at) in names and self.word(at - 1) != "." and (self.word(at - 2), self.word(at - 1)) != ("-", ">")

    def calls(self, function):
        """The tokens of a function's body that name functions of the source."""
        names = {it.name for it in self.functions}
        return [at for at in range(function.body, function.end) if self.own_name(at, names)]

    def reached(self, name):
        """The functions that the function of this name needs, itself too."""
        found, left = [], [name]
        while left:
            name = left.pop()
            for it in self.functions:
                if it.name == name and it not in found:
                    found.append(it)
                    left += [self.word(at) for at in self.calls(it)]
        return found

    def circle(self, name):
        """The tokens of calls that lead from a function back to itself, of the first such that this function needs; or none."""
        by_name = {it.name: it for it in self.functions}
        for it in self.reached(name):
            ways, seen = [[at] for at in self.calls(it)], set()
            while ways:
                way = ways.pop(0)
                called = self.word(way[-1])
                if called == it.name:
                    return way
                if called not in seen:
                    seen.add(called)
                    ways += [[*way, at] for at in self.calls(by_name[called])]
        return []

    def addresses(self, name=None):
        """The tokens that name functions, or this one, and don't call them. In a function that has a variable of its name, that is meant."""
        names = {it.name for it in self.functions} if name is None else {name}
        declared = {at for it in self.functions for at in range(it.declared, it.body)}
        found = [at for at in range(len(self.tokens)) if self.own_name(at, names) and self.word(at + 1) != "("]
        variables = [at for at in found if self.is_declared(at)] + [it.at for it in self.variables_named(names)]
        hidden = {(self.word(at), self.scope_of(at)) for at in variables}
        return [at for at in found if at not in declared and at not in variables and (self.word(at), self.scope_of(at)) not in hidden]

    def scope_of(self, at):
        """The first token of the function in which a token stands, its parameters too; or of the token itself."""
        return next((it.declared for it in self.functions if it.declared <= at < it.end), at)

    def variables_named(self, names):
        """The variables of functions that have one of these names, as their declarations give them."""
        found = [declaration(self, first, last, None) for first, last in self.statements if names & {it.text for it in self.tokens[first:last]}]
        return [it for own in found if own for it in own.locals if it.name in names]

    def is_declared(self, at):
        """Whether a name is that of a variable or a parameter which is declared there: it stands after a type."""
        before = at - 1
        while self.word(before) == "*" or self.word(before) in ("const", "restrict"):
            before -= 1
        word = self.word(before)
        typed = bool(re.match(r"[A-Za-z_$]", word)) and word not in NO_TYPES
        return typed and (before == at - 1 or self.word(at + 1) in (",", ")", ";", "=", "["))

    def closed(self, at):
        """The token after the bracket that closes the one at this place."""
        opened = []
        while at < len(self.tokens):
            word = self.word(at)
            if word in CLOSES:
                opened.append(CLOSES[word])
            elif opened and word == opened[-1]:
                opened.pop()
                if not opened:
                    return at + 1
            at += 1
        raise Unread("a bracket isn't closed")

    def outside(self):
        """What stands outside of functions."""
        start = at = 0
        name = None
        while at < len(self.tokens):
            word = self.word(at)
            if word in ("(", "["):
                before = self.tokens[at - 1].text if at > start else ""
                if word == "(" and name is None and re.match(r"[A-Za-z_]", before) and before not in NO_NAMES:
                    name = before
                at = self.closed(at)
            elif word == "{":
                end = self.closed(at)
                if name is not None and not any(it.text == "=" for it in self.tokens[start:at]):
                    self.function(Function(name, start, at, end))
                    start, name = end, None
                at = end
            else:
                at += 1
                if word == ";":
                    start, name = at, None

    def function(self, found):
        """Reads a function's body, statement by statement."""
        self.functions.append(found)
        at = found.body + 1
        while at < found.end - 1:
            at = self.statement(at)

    def block(self, at):
        """The statements of a block, which begins at this token; the token after it."""
        end = self.closed(at)
        at += 1
        while at < end - 1:
            at = self.statement(at)
        return end

    def statement(self, at):
        """Goes over a statement, and answers the token after it."""
        word = self.word(at)
        if word == "{":
            return self.block(at)
        if word in LOOPS:
            return self.loop(at)
        if word in ("if", "switch"):
            at = self.statement(self.expression(at + 1))
            return self.statement(at + 1) if word == "if" and self.word(at) == "else" else at
        if word in ("case", "default"):
            while self.word(at) != ":":
                at = self.closed(at) if self.word(at) in CLOSES else at + 1
            return self.statement(at + 1) if self.word(at + 1) != "}" else at + 1
        if self.word(at + 1) == ":" and re.match(r"[A-Za-z_]", word):
            return self.statement(at + 2) if self.word(at + 2) != "}" else at + 2
        first = at
        while self.word(at) != ";":
            if at >= len(self.tokens):
                raise Unread("a statement has no end")
            at = self.expression(at) if self.word(at) in CLOSES else at + 1
        self.statements.append((first, at))
        return at + 1

    def expression(self, at):
        """Goes over what stands in brackets, blocks in parentheses too."""
        end = self.closed(at)
        at += 1
        while at < end - 1:
            if self.word(at) == "{" and self.word(at - 1) == "(":
                at = self.block(at)
            elif self.word(at) in CLOSES:
                at = self.expression(at)
            else:
                at += 1
        return end

    def loop(self, at):
        """A loop; it stands in the list in front of those within it."""
        first, place = at, len(self.loops)
        self.loops.append(None)
        word = self.word(at)
        if word == "do":
            body = at + 1
            after = self.statement(body)
            if self.word(after) != "while":
                raise Unread("a do has no while")
            condition = (after + 2, self.closed(after + 1) - 1)
            end = self.closed(after + 1) + 1
        else:
            body = self.expression(at + 1)
            condition = (at + 2, body - 1) if word == "while" else self.middle(at + 2, body - 1)
            end = self.statement(body)
        line, last = self.tokens[first].line, self.tokens[end - 1].line
        name = self.functions[-1].name
        self.loops[place] = Loop(word, self.tokens[first].file, line, last, body, condition, (first, end), name)
        return end

    def middle(self, at, end):
        """The condition of a for: what stands between its semicolons."""
        found = []
        start = at
        while at < end:
            if self.word(at) == ";":
                found.append((start, at))
                start = at + 1
            at = self.closed(at) if self.word(at) in CLOSES else at + 1
        if len(found) != 2:
            raise Unread("a for has no two semicolons")
        return found[1]

    def is_local(self, function):
        """Whether it stays a function: LOCAL gives it a section."""
        return any(it.text in ("section", "__section__") for it in self.tokens[function.declared : function.body])

    def is_hidden(self, function):
        """Whether the compiler leaves it out where nobody calls it."""
        words = {it.text for it in self.tokens[function.declared : function.body]}
        return bool(words & {"static", "inline", "__inline", "__inline__"})

    def inlined(self, checker):
        """Edits that inline each function but the checker, main, and the LOCAL ones: a place, how much goes, what comes."""
        for it in self.functions:
            if it.name in (checker, "main") or self.is_local(it):
                continue
            inner = self.tokens[it.declared : it.body]
            for token in inner:
                if token.text in ("noinline", "__noinline__", "weak", "__weak__"):
                    yield token.start, token.end, "__unused__"
            words = {token.text for token in inner}
            attributes = ["__attribute__((__always_inline__))"] if not words & {"always_inline", "__always_inline__"} else []
            inline = ["inline"] if not words & {"inline", "__inline", "__inline__"} else []
            static = ["static"] if "static" not in words else []
            if "extern" not in words:
                yield inner[0].start, inner[0].start, " ".join([*attributes, *static, *inline, ""])

    def turned(self, loop, text):
        """An edit that puts the statement `text` in front of the body of a loop."""
        at = self.tokens[loop.body].start
        return at, at, f"if (({{ {text} 0; }})) ; else "

    def kept(self, loop):
        """Edits after which the compiler knows nothing of the variables of a loop's condition where that is tested."""
        first, end = loop.condition
        names = self.variables(loop)
        if not names or first == end:
            return
        keep = " ".join(KEEP.replace("NAME", it) for it in names)
        yield self.tokens[first].start, self.tokens[first].start, f"(({{ {keep} 1; }}) && ("
        yield self.tokens[end].start, self.tokens[end].start, "))"

    def words(self, tokens):
        """The words of these tokens, and of the functions that they name, and these name."""
        found = {it.text for it in self.tokens[slice(*tokens)]}
        left = list(self.functions)
        while named := [it for it in left if it.name in found]:
            left = [it for it in left if it.name not in found]
            found |= {token.text for it in named for token in self.tokens[it.body : it.end]}
        return found

    def apart(self, loops):
        """The loops in groups in which none stands in another, nor in a function that another calls."""
        words = [self.words(it.tokens) for it in loops]
        groups = []
        for at, loop in enumerate(loops):
            for group in groups:
                if not any(self.has(loops[it], words[it], loop) or self.has(loop, words[at], loops[it]) for it in group):
                    group.append(at)
                    break
            else:
                groups.append([at])
        return [[loops[at] for at in group] for group in groups]

    def has(self, outer, words, inner):
        """Whether a loop, of these words, has another one."""
        return inner.function in words or (outer.tokens[0] < inner.tokens[0] and inner.tokens[1] <= outer.tokens[1])

    def variables(self, loop):
        """The names in the condition that the loop changes."""
        inside = [it.text for it in self.tokens[loop.tokens[0] : loop.tokens[1]]]
        found = []
        for at in range(*loop.condition):
            name = self.word(at)
            alone = self.word(at - 1) not in (".", ">") and self.word(at + 1) not in ("(", "[", ".")
            arrow = self.word(at + 1) == "-" and self.word(at + 2) == ">"
            if re.match(r"[A-Za-z_]", name) and alone and not arrow and name not in found and is_changed(inside, name):
                found.append(name)
        return found

    def edited(self, edits):
        """The text after edits, which don't overlap."""
        out, at = [], 0
        for start, end, text in sorted(edits, key=lambda it: it[:2]):
            out += [self.text[at:start], text]
            at = end
        return "".join(out) + self.text[at:]


def is_changed(words, name):
    """Whether these words give the variable another value."""
    for at, word in enumerate(words):
        if word != name:
            continue
        after, before = words[at + 1 : at + 4], words[max(0, at - 2) : at]
        if before in (["+", "+"], ["-", "-"]) or after[:2] in (["+", "+"], ["-", "-"]):
            return True
        if after[:1] == ["="] and after[1:2] != ["="]:
            return True
        if after[1:2] == ["="] and after[0] in "+-*/%&|^":
            return True
        if after[:2] in (["<", "<"], [">", ">"]) and after[2:3] == ["="]:
            return True
    return False
