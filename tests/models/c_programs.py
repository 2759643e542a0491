"""Random checkers in C, each of which has one answer on each image by the rules of C alone: no run of them overflows a signed number,
shifts too far, divides by 0, reads what wasn't written or outside of an array, or depends on the order in which operands are computed.

They have numbers of all sizes with and without a sign, arrays, structs with bit fields, unions, tables, texts, functions, `switch`, loops, and
the functions of memory and of texts that checker.h has. What a run makes is the answer, a number of 64 bits.
"""
import re

BITS = {"u8": 8, "u16": 16, "u32": 32, "u64": 64, "int8_t": 8, "int16_t": 16, "int32_t": 32, "int64_t": 64}
TYPES = list(BITS)
UNSIGNED = TYPES[:4]
MOST_DEPTH, MOST_NESTED = 3, 2
# A struct whose fields are all of the kinds that there are.
STRUCT = (
    "struct it { u8 a; int16_t b; u32 c; int64_t d; u8 e[5]; unsigned f : 5; int g : 7; u64 h : 33; union { u32 w; u8 v[4]; } u; };\n"
    "struct pair { u32 one; int64_t two; };\n"
)
FIELDS = {"a": "u8", "b": "int16_t", "c": "u32", "d": "int64_t", "e[{i}]": "u8", "f": "u8", "g": "int8_t", "h": "u64", "u.w": "u32", "u.v[{j}]": "u8"}
LETTERS = "abc dxyz"
# What only the checker itself has.
CONTEXT = re.compile(r"context->\w+")


def helpers():
    """The functions that every checker has: divisions that C leaves undefined nowhere, and the sum of all bytes of an array."""
    for name, bits in BITS.items():
        least = f" || b == -1 && a == -{2 ** (bits - 1) - 1}ll - 1" if name.startswith("int") else ""
        for word, sign in (("quotient", "/"), ("remainder", "%")):
            yield f"static {name} {word}_{name}({name} a, {name} b) {{ return b == 0{least} ? a : a {sign} b; }}\n"
    yield "static u64 mixed(u64 sum, u64 n) { return (sum ^ n) * 0x100000001b3ull + (sum >> 29); }\n"
    yield "static u64 bytes_of(const void *from, u64 n) { const u8 *p = from; u64 sum = n; for (u64 i = 0; i < n; i++) sum = sum * 31 + p[i]; return sum; }\n"


class Room:
    """What a piece of C may name: variables, with their types, those of them that may be changed, arrays with their types and sizes,
    structs, and functions."""

    def __init__(self, other=None):
        self.numbers = list(other.numbers) if other else []
        self.fixed = list(other.fixed) if other else []
        self.arrays = list(other.arrays) if other else []
        self.tables = list(other.tables) if other else []
        self.texts = list(other.texts) if other else []
        self.structs = list(other.structs) if other else []
        self.functions = list(other.functions) if other else []
        self.choices = list(other.choices) if other else []


class Writer:
    """Writes one checker by a generator of chances."""

    def __init__(self, chance):
        self.chance, self.count = chance, 0
        # What is being written: whether it changes nothing, and what it answers.
        self.pure, self.returned = False, "u64"

    def name(self, letter):
        self.count += 1
        return f"{letter}{self.count}"

    def number(self, kind):
        """A constant of a type."""
        bits, signed = BITS[kind], kind.startswith("int")
        most = 2 ** (bits - signed) - 1
        given = self.chance.choice([0, 1, 2, 3, 5, 7, 10, 100, most, most - 1, most // 2 + 1, most // 3, self.chance.randrange(most + 1), self.chance.randrange(256)]) % (most + 1)
        if signed and self.chance.random() < 0.4:
            return f"({kind})-{given}ll"
        return f"({kind}){given}ull" if not signed else f"({kind}){given}ll"

    def index(self, room, size, depth):
        """An index below a size that is a power of two, or any other."""
        if self.chance.random() < 0.2:
            return str(self.chance.randrange(size))
        text = f"(u64){self.value(room, depth)[0]}"
        return f"({text} & {size - 1})" if size & (size - 1) == 0 else f"({text} % {size})"

    def leaf(self, room):
        """Something that stands for itself, with its type."""
        chance = self.chance
        kind = chance.random()
        if kind < 0.2:
            name = chance.choice(TYPES)
            return self.number(name), name
        if kind < 0.3:
            size = chance.choice([8, 16, 32, 64])
            return f"u{size}_at{chance.choice(['', '_be']) if size > 8 else ''}({chance.choice([0, 8, 17, 510, 600, 1021, 2040, 5000])})", f"u{size}"
        if kind < 0.34:
            return chance.choice([("context->marks", "u64"), ("context->epoch", "u64"), ("context->sectors", "u64")])
        if kind < 0.45 and room.structs:
            return self.field(room, MOST_DEPTH)
        if kind < 0.55 and room.arrays + room.tables:
            name, type_, size = chance.choice(room.arrays + room.tables)
            return f"{name}[{chance.randrange(size)}]", type_
        return chance.choice(room.numbers + room.fixed)

    def field(self, room, depth):
        """A field of a struct, with its type."""
        name = self.chance.choice(room.structs)
        field, kind = self.chance.choice(list(FIELDS.items()))
        return f"{name}{field.format(i=self.index(room, 5, depth), j=self.index(room, 4, depth))}", kind

    def as_type(self, room, kind, depth):
        """A value of this type."""
        return f"({kind})({self.value(room, depth)[0]})"

    def value(self, room, depth=0):
        """An expression, with its type."""
        if depth >= MOST_DEPTH or self.chance.random() < 0.15:
            return self.leaf(room)
        some = [self.sum, self.sum, self.sum, self.bits, self.bits, self.shifted, self.divided, self.compared, self.chosen, self.cast, self.read, self.element, self.called, self.builtin, self.of_text]
        return self.chance.choice(some)(room, depth + 1)

    def sum(self, room, depth):
        """A sum, a difference or a product, by numbers that are wide enough."""
        kind, sign = self.chance.choice(TYPES), self.chance.choice("++-*")
        a, b = (self.as_type(room, kind, depth) for _ in range(2))
        wide = {"u8": "u32", "u16": "u32", "int32_t": "int64_t", "int64_t": "u64"}.get(kind)
        a, b = (f"({wide}){it}" if wide else it for it in (a, b))
        return f"({kind})({a} {sign} {b})", kind

    def bits(self, room, depth):
        """And, or, exclusive or, or the complement."""
        kind = self.chance.choice(TYPES)
        if self.chance.random() < 0.2:
            return f"({kind})~{self.as_type(room, kind, depth)}", kind
        return f"({kind})({self.as_type(room, kind, depth)} {self.chance.choice('&|^')} {self.as_type(room, kind, depth)})", kind

    def shifted(self, room, depth):
        """A shift in either direction, by fewer places than there are bits."""
        kind = self.chance.choice(TYPES)
        far = f"({self.as_type(room, 'u32', depth)} & {BITS[kind] - 1})" if self.chance.random() < 0.6 else str(self.chance.randrange(BITS[kind]))
        if self.chance.random() < 0.5:
            return f"({kind})({self.as_type(room, kind, depth)} >> {far})", kind
        wide = "u64" if BITS[kind] == 64 else "u32"
        return f"({kind})(({wide}){self.as_type(room, kind, depth)} << {far})", kind

    def divided(self, room, depth):
        """A quotient or a remainder, by a constant or by any number."""
        kind, first = self.chance.choice(TYPES), self.chance.random() < 0.5
        if self.chance.random() < 0.5:
            by = self.chance.choice([2, 3, 7, 8, 10, 64, 100, 127] + [-3, -8] * kind.startswith("int"))
            return f"({kind})({self.as_type(room, kind, depth)} {'/' if first else '%'} {by})", kind
        return f"{'quotient' if first else 'remainder'}_{kind}({self.as_type(room, kind, depth)}, {self.as_type(room, kind, depth)})", kind

    def compared(self, room, depth):
        """A comparison, also of numbers of two types, or a choice of conditions."""
        sign = self.chance.choice(["<", "<=", ">", ">=", "==", "!=", "&&", "||"])
        text = f"(({self.value(room, depth)[0]}) {sign} ({self.value(room, depth)[0]}))"
        return (f"!{text}" if self.chance.random() < 0.2 else text), "u8"

    def chosen(self, room, depth):
        kind = self.chance.choice(TYPES)
        return f"(({self.value(room, depth)[0]}) ? {self.as_type(room, kind, depth)} : {self.as_type(room, kind, depth)})", kind

    def cast(self, room, depth):
        kind = self.chance.choice(TYPES)
        return f"({self.as_type(room, kind, depth)})", kind

    def read(self, room, depth):
        """A number of the device, at any place of it and past its end."""
        size = self.chance.choice([8, 16, 32, 64])
        place = f"{self.as_type(room, 'u64', depth)} & {self.chance.choice([63, 1023, 8191])}"
        return f"u{size}_at{self.chance.choice(['', '_be']) if size > 8 else ''}({place})", f"u{size}"

    def element(self, room, depth):
        """An element of an array or a table, or a field of a struct."""
        if room.structs and self.chance.random() < 0.3:
            return self.field(room, depth)
        if not room.arrays + room.tables:
            return self.leaf(room)
        name, kind, size = self.chance.choice(room.arrays + room.tables)
        if self.chance.random() < 0.2:
            return f"*({name} + {self.index(room, size, depth)})", kind
        return f"{name}[{self.index(room, size, depth)}]", kind

    def called(self, room, depth):
        """A call of a function that changes nothing."""
        pure = [it for it in room.functions if it[3]]
        if not pure:
            return self.leaf(room)
        name, kind, kinds, _ = self.chance.choice(pure)
        return f"{name}({', '.join(self.as_type(room, it, depth) for it in kinds)})", kind

    def builtin(self, room, depth):
        """What a compiler has of its own for bits and bytes."""
        word, kind = self.chance.choice([("popcountll", "u64"), ("popcount", "u32"), ("bswap16", "u16"), ("bswap32", "u32"), ("bswap64", "u64"), ("ctzll", "u64"), ("clz", "u32"), ("ffsll", "u64"), ("parity", "u32")])
        given = self.as_type(room, kind, depth)
        given = f"({given} | 1)" if word in ("ctzll", "clz") else given
        return f"({kind})__builtin_{word}({given})", kind

    def of_text(self, room, depth):
        """A letter of a text, its length, or how two compare."""
        if not room.texts:
            return self.leaf(room)
        (name, size), (other, _) = (self.chance.choice(room.texts) for _ in range(2))
        return self.chance.choice([
            (f"{name}[{self.index(room, size, depth)}]", "int8_t"),
            (f"strlen({name})", "u64"),
            (f"(strcmp({name}, {other}) < 0)", "u8"),
            (f"(strncmp({name}, {other}, {self.chance.randrange(1, 6)}) > 0)", "u8"),
            (f"(memcmp({name}, {other}, {self.chance.randrange(1, 4)}) == 0)", "u8"),
            (f"(strchr({name}, {LETTERS[0]!r}) != 0)", "u8"),
            (f"strnlen({name}, {self.index(room, 8, depth)})", "u64"),
        ])

    def declared(self, room, static):
        """A declaration of something, which is in the room from then on."""
        chance = self.chance
        before, kind = "static " * static, chance.random()
        type_ = chance.choice(TYPES)
        if kind < 0.35 or not static and kind < 0.55:
            name = self.name("v")
            text = f"{before}{type_} {name} = {self.number(type_) if static else self.as_type(room, type_, 1)};"
            room.numbers.append((name, type_))
            return text
        if kind < 0.75:
            return self.array(room, before, type_)
        name = self.name("s")
        given = chance.choice(["{ 0 }", "{ 1, -2, 3, -4, { 5, 6 }, 7, -8, 9 }", "{ .c = 70000, .e = { 1, 2, 3 }, .g = -3, .u = { .w = 258 } }"])
        room.structs.append(f"{name}.")
        return f"{before}struct it {name} = {given};"

    def array(self, room, before, type_):
        """An array: mostly one that is given some numbers, or a text, or a table of constants."""
        chance, name = self.chance, self.name("a")
        kind = chance.random()
        if kind < 0.2:
            text = "".join(chance.choice(LETTERS) for _ in range(chance.randrange(1, 12)))
            room.texts.append((name, 16))
            return f'{before}char {name}[16] = "{text}";'
        size = chance.choice([4, 5, 8, 16, 33, 64])
        size = size if before or kind < 0.8 else chance.choice([80, 256, 700])
        some = [self.number(type_) for _ in range(chance.randrange(1, min(size, 12) + 1))]
        if chance.random() < 0.2:
            some.append(f"[{size - 1}] = {self.number(type_)}")
        if before and kind > 0.7:
            room.tables.append((name, type_, size))
            return f"static const {type_} {name}[{size}] = {{ {', '.join(some)} }};"
        room.arrays.append((name, type_, size))
        return f"{before}{type_} {name}[{size}] = {{ {', '.join(some)} }};"

    def statements(self, room, count, nested, loops=True):
        """Some statements, a line each; what they declare is theirs alone."""
        own = Room(room)
        return "\n".join(self.statement(own, nested, loops) for _ in range(count))

    def block(self, room, nested, loops):
        return "{ " + self.statements(room, self.chance.randrange(1, 4), nested + 1, loops) + " }"

    def statement(self, room, nested, loops):
        """One statement."""
        some = [self.assigned] * 5 + [self.added] * 3 + [self.stored] * 4 + [self.moved, self.moved, self.told, self.left, self.calls, self.chooses]
        if nested == 0:
            some += [lambda it, _: self.declared(it, self.chance.random() < 0.2)] * 2
        if nested < MOST_NESTED:
            some += [self.condition] * 3 + [self.switched] * 2 + [self.jump] + ([self.loop] * 3 + [self.walk] if loops else [])
        way = self.chance.choice(some)
        if way in (self.condition, self.switched, self.jump):
            return way(room, nested, loops)
        return way(room, nested)

    def assigned(self, room, _nested):
        name, kind = self.chance.choice(room.numbers)
        return f"{name} = {self.as_type(room, kind, 0)};"

    def added(self, room, _nested):
        """Something that is added to a variable without a sign, or done to its bits."""
        some = [it for it in room.numbers if it[1] in UNSIGNED]
        if not some:
            return ";"
        name, kind = self.chance.choice(some)
        if self.chance.random() < 0.2:
            return self.chance.choice([f"{name}++;", f"--{name};"])
        sign = self.chance.choice("+-^&|" + "*" * (BITS[kind] >= 32))
        return f"{name} {sign}= {self.as_type(room, kind, 1)};"

    def stored(self, room, _nested):
        """A number that goes to an array or a field."""
        if room.structs and self.chance.random() < 0.4:
            name, kind = self.field(room, 2)
            return f"{name} = {self.as_type(room, kind, 1)};"
        if not room.arrays:
            return ";"
        name, kind, size = self.chance.choice(room.arrays)
        sign = self.chance.choice(["", "", "^", "+"]) if kind in UNSIGNED else ""
        return f"{name}[{self.index(room, size, 2)}] {sign}= {self.as_type(room, kind, 1)};"

    def moved(self, room, _nested):
        """Bytes that are set, copied or moved; or a whole struct."""
        chance = self.chance
        if len(room.structs) > 1 and chance.random() < 0.3:
            one, other = (it[:-1] for it in chance.sample([it for it in room.structs], 2))
            return f"{one} = {other};" if not (one.endswith("-") or other.endswith("-")) else ";"
        if not room.arrays:
            return ";"
        (one, kind, size), (other, more, count) = (chance.choice(room.arrays) for _ in range(2))
        bytes_, most = size * BITS[kind] // 8, count * BITS[more] // 8
        first, length = chance.randrange(bytes_), 0
        length = chance.randrange(1, min(bytes_ - first, most) + 1)
        if chance.random() < 0.3:
            return f"memset((u8 *){one} + {first}, {chance.choice(['0', '255', self.as_type(room, 'u8', 2)])}, {length});"
        last = chance.randrange(most - length + 1)
        told = str(length) if chance.random() < 0.6 else f"({self.as_type(room, 'u64', 2)} % {length + 1})"
        word = "memmove" if one == other else "memcpy"
        if chance.random() < 0.15:
            return f"read_bytes({self.as_type(room, 'u64', 2)} & 2047, (u8 *){one} + {first}, {length});"
        return f"{word}((u8 *){one} + {first}, (u8 *){other} + {last}, {told});"

    def told(self, room, _nested):
        return ";" if self.pure else f"report({self.value(room, 1)[0]});"

    def left(self, room, _nested):
        """An early end of the function, at a condition that seldom holds."""
        return f"if ({self.as_type(room, 'u8', 1)} == {self.chance.randrange(256)}) return ({self.returned})({self.value(room, 1)[0]});"

    def calls(self, room, _nested):
        """A call whose answer goes to a variable."""
        if not room.functions:
            return ";"
        name, _, kinds, _ = self.chance.choice(room.functions)
        to, kind = self.chance.choice(room.numbers)
        return f"{to} = ({kind}){name}({', '.join(self.as_type(room, it, 1) for it in kinds)});"

    def chooses(self, room, _nested):
        """A call by a table of functions."""
        if not room.choices:
            return ";"
        to, kind = self.chance.choice(room.numbers)
        name, count = self.chance.choice(room.choices)
        return f"{to} = ({kind}){name}[{self.index(room, count, 2)}]({self.as_type(room, 'u32', 1)}, {self.as_type(room, 'int16_t', 1)});"

    def condition(self, room, nested, loops):
        text = f"if ({self.value(room)[0]}) {self.block(room, nested, loops)}"
        return text + (f" else {self.block(room, nested, loops)}" if self.chance.random() < 0.5 else "")

    def switched(self, room, nested, loops):
        """A switch, some of whose cases fall through."""
        text, numbers = [], self.chance.sample(range(12), self.chance.randrange(2, 7))
        for it in numbers:
            end = " break;" if self.chance.random() < 0.75 else ""
            text.append(f"case {it}: {self.block(room, nested, loops)}{end}")
        if self.chance.random() < 0.7:
            text.append(f"default: {self.block(room, nested, loops)}")
        kind = self.chance.choice(["u8", "u32", "int32_t", "u64"])
        return f"switch (({kind})({self.value(room)[0]}) % 13) {{ {' '.join(text)} }}"

    def jump(self, room, nested, loops):
        label = self.name("out")
        return f"{{ if ({self.value(room, 1)[0]}) goto {label}; {self.block(room, nested, loops)} {label}: ; }}"

    def loop(self, room, nested):
        """A loop of few turns, as many as a constant or an image says."""
        name, own = self.name("i"), Room(room)
        own.fixed.append((name, "u64"))
        body = self.block(own, nested, True)[1:-1]
        leaves = f" if ({self.value(own, 1)[0]}) {self.chance.choice(['break', 'continue'])};" if self.chance.random() < 0.4 else ""
        many = str(self.chance.randrange(1, 9)) if self.chance.random() < 0.5 else f"(({self.as_type(room, 'u64', 2)}) & 7)"
        kind = self.chance.random()
        if kind < 0.6:
            return f"for (u64 {name} = 0; {name} < {many}; {name}++) {{ {body}{leaves} }}"
        if kind < 0.8:
            return f"{{ u64 {name} = {many}; while ({name}-- > 0) {{ {body}{leaves} }} }}"
        return f"{{ u64 {name} = 0; do {{ {body} }} while (++{name} < {many}); }}"

    def walk(self, room, _nested):
        """A pointer that goes over an array."""
        if not room.arrays:
            return ";"
        name, kind, size = self.chance.choice(room.arrays)
        to, other = self.chance.choice(room.numbers)
        at = self.name("p")
        return f"for (const {kind} *{at} = {name}; {at} < {name} + {size}; {at}++) {to} = ({other})mixed((u64){to}, (u64)*{at});"

    def function(self, room, pure, local):
        """A function, which is in the room from then on. A pure one has its parameters alone."""
        kind, name = self.chance.choice(TYPES), self.name("f")
        kinds = [self.chance.choice(TYPES) for _ in range(self.chance.randrange(1, 4))]
        return self.body(room, name, kind, kinds, pure, "LOCAL(check)" if local else "static", not local)

    def body(self, room, name, kind, kinds, pure, before, loops):
        """The text of a function of this name and these types."""
        own = Room() if pure else Room(room)
        own.choices, own.functions = [], [it for it in room.functions if it[3] or not pure] if loops else []
        parameters = [(self.name("n"), it) for it in kinds]
        own.numbers += parameters
        self.pure, self.returned, given = pure, kind, ", ".join(f"{it} {name}" for name, it in parameters)
        text = self.statements(own, self.chance.randrange(2, 5), 1, loops)
        text = CONTEXT.sub("2", f"{text}\nreturn {self.value(own)[0]};")
        room.functions.append((name, kind, kinds, pure))
        return f"{before} {kind} {name}({given})\n{{\n{text}\n}}\n"

    def table(self, room):
        """Functions of one type, and a table of them."""
        text, names = "", []
        for _ in range(self.chance.randrange(2, 5)):
            names.append(self.name("f"))
            text += self.body(room, names[-1], "u64", ["u32", "int16_t"], self.chance.random() < 0.5, "static", True)
        name = self.name("t")
        room.choices.append((name, len(names)))
        return f"{text}static u64 (*const {name}[])(u32, int16_t) = {{ {', '.join(names)} }};\n"

    def checker(self):
        """The whole text."""
        chance, room = self.chance, Room()
        parts = ['#include "checker.h"\n#include <stdint.h>\n#include <string.h>\n', STRUCT, *helpers()]
        for _ in range(chance.randrange(3, 9)):
            parts.append(self.declared(room, True) + "\n")
        room.numbers = room.numbers or [("v0", "u64")]
        parts.append("static u64 v0 = 3;\n" * (room.numbers[0][0] == "v0"))
        for _ in range(chance.randrange(3)):
            parts.append(self.function(room, chance.random() < 0.5, chance.random() < 0.2))
        if chance.random() < 0.2:
            parts.append(self.table(room))
        own = Room(room)
        self.pure, self.returned = False, "u64"
        body = "\n".join(self.statement(own, 0, True) for _ in range(chance.randrange(3, 8)))
        sums = [f"(u64){name}" for name, _ in own.numbers]
        sums += [f"bytes_of({name}, sizeof {name})" for name, _, _ in own.arrays] + [f"strlen({name})" for name, _ in own.texts]
        sums += [f"(u64){it}{field.format(i=3, j=1)}" for it in own.structs for field in FIELDS]
        ends = "\n".join(f"end = mixed(end, {it});" for it in sums)
        return "".join(parts) + f"u64 check(const struct context *context)\n{{\nu64 end = 1;\n{body}\n{ends}\nreturn end;\n}}\n"
