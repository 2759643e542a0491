"""What a compiler's object file holds: the instructions of one function, what they need beside it, and their cycles."""
import struct
from dataclasses import dataclass

SLOT = 8
MOST_SLOTS = 4096
# The parts of an ELF file that are looked at, and the rows of its two kinds of relocations.
BPF = 247
UNDEFINED, TABLE_OF_SYMBOLS = 0, 2
RELOCATIONS = {4: "<QQq", 9: "<QQ"}
FUNCTION, LOCAL = 2, 0
# Opcodes.
LDDW, CALL, EXIT, JA, JA32 = 0x18, 0x85, 0x95, 0x05, 0x06
JEQ, JNE = 0x15, 0x55
AGAIN = 3
# What a run answers that spent the turns of a plain loop, and one that would read outside of a table.
SPENT, OUTSIDE = 1000000, 1000001
# How deep cycles are told apart: the others are found once these have turns.
MOST_NESTED = 64


class Refusal(Exception):
    """Why there is no program, with lines of what helps."""

    def __init__(self, text, *hints):
        super().__init__(text)
        self.hints = hints


class NoProgram(Refusal):
    """The checker can't be made a program, in one way of compiling it at least."""


class FunctionTaken(NoProgram):
    """A table or a variable has the address of a function, of this name."""

    def __init__(self, name):
        super().__init__(f"a table or a variable has the address of the function {name}", "a switch that calls the functions by their names")
        self.name = name


@dataclass
class Symbol:
    name: str
    kind: int
    binding: int
    section: int
    value: int
    size: int


@dataclass
class Section:
    name: str
    kind: int
    offset: int
    size: int
    link: int
    info: int
    align: int = 1


@dataclass
class Need:
    """A slot that needs what lies outside of the function."""

    slot: int
    name: str
    kind: str


def broken(why):
    """The refusal of an object file that isn't read."""
    return NoProgram(
        f"the object file can't be read: {why}",
        "no asm outside of functions, and none with .incbin or sections of its own; clang 14 or newer, or gcc 12 or newer for BPF",
    )


class Object:
    """A little-endian ELF file of 64 bits, as both compilers make it. NoProgram is raised where it is any other.

    A place of code or data may name a symbol that lies inside of its section. `from_symbols` says that such a place holds the
    distance from the symbol. Where that isn't known, the place is refused.
    """

    def __init__(self, bytes_, from_symbols=True):
        self.bytes, self.from_symbols = bytes_, from_symbols
        if bytes_[:6] != b"\x7fELF\2\1" or self.fields("<H", 0x12) != (BPF,):
            raise broken("it is no little-endian ELF file of 64 bits for BPF")
        (start,) = self.fields("<Q", 0x28)
        size, count, names = self.fields("<HHH", 0x3A)
        heads = [self.fields("<IIQQQQIIQQ", start + size * i) for i in range(count)]
        if names >= count:
            raise broken("its sections have no names")
        at = heads[names][4]
        self.sections = [Section(self.text(at + it[0]), it[1], it[4], it[5], it[6], it[7], it[8]) for it in heads]
        self.symbols = [it for section in self.sections if section.kind == TABLE_OF_SYMBOLS for it in self.table(section)]

    def fields(self, form, at):
        if at + struct.calcsize(form) > len(self.bytes):
            raise broken(f"it ends before byte {at}")
        return struct.unpack_from(form, self.bytes, at)

    def text(self, at):
        """Returns the name at a place of the file."""
        end = self.bytes.find(b"\0", at)
        if end < 0:
            raise broken("a name has no end")
        return self.bytes[at:end].decode(errors="replace")

    def content(self, section):
        if section.offset + section.size > len(self.bytes):
            raise broken(f"it ends before its section {section.name}")
        return self.bytes[section.offset : section.offset + section.size]

    def rows(self, section, form):
        """The rows of a table that a section holds."""
        content = self.content(section)
        return struct.iter_unpack(form, content[: len(content) // struct.calcsize(form) * struct.calcsize(form)])

    def section_at(self, number):
        """The section of that number, or none: a symbol may have a number that means none."""
        return self.sections[number] if UNDEFINED < number < len(self.sections) else None

    def table(self, section):
        """Yields the symbols of a section of symbols."""
        names = self.section_at(section.link)
        if names is None:
            raise broken("its symbols have no names")
        for name, info, _, index, value, size in self.rows(section, "<IBBHQQ"):
            yield Symbol(self.text(names.offset + name), info & 15, info >> 4, index, value, size)

    def functions(self):
        return [it for it in self.symbols if it.kind == FUNCTION and self.section_at(it.section)]

    def function(self, name):
        """The function of that name, which has a section for itself and what is LOCAL to it; none where there is none."""
        found = [it for it in self.functions() if it.name == name]
        if not found:
            return None
        (it, *more) = found
        section = self.sections[it.section]
        if section.size % SLOT:
            raise broken(f"its section {section.name} isn't whole instructions")
        local = sum(s.size for s in self.functions() if s.section == it.section and s.binding == LOCAL and s is not it)
        if more or section.size != local + it.size:
            raise NoProgram(
                f"the section {section.name} of {name} holds more than this function and what is LOCAL to it",
                "take the attribute section(..) away, and all asm outside of functions",
            )
        return it

    def moved(self, function):
        """Where each slot of the function's section goes: the function comes first, whatever the compiler's order."""
        found, at = {}, 0
        section = self.sections[function.section]
        others = [it for it in self.functions() if it.section == function.section and it is not function]
        for it in [function, *sorted(others, key=lambda other: other.value)]:
            if it.value % SLOT or it.size % SLOT or it.value + it.size > section.size:
                raise broken(f"the function {it.name} isn't whole instructions")
            for slot in range(it.value // SLOT, (it.value + it.size) // SLOT):
                found[slot] = at
                at += 1
        if not at or len(found) != at:
            raise broken(f"the functions of its section {section.name} overlap, or are empty")
        return found

    def code(self, function, moved, memory=None):
        """The instructions, with calls between functions as these have moved, and the addresses of what is in memory."""
        code = self.content(self.sections[function.section])
        code = memory.filled_code(code) if memory else code
        out = bytearray(code)
        for at, it in slots_of(code).items():
            size = 2 if it.opcode == LDDW else 1
            if moved.get(at + size - 1) != moved[at] + size - 1:
                raise broken(f"an instruction of {function.name} isn't whole")
            out[SLOT * moved[at] : SLOT * (moved[at] + size)] = code[SLOT * at : SLOT * (at + size)]
            if it.opcode == CALL and it.source == 1:
                if at + 1 + it.immediate not in moved:
                    raise broken(f"a call of {function.name} leads out of its section")
                distance = moved[at + 1 + it.immediate] - moved[at] - 1
                struct.pack_into("<i", out, SLOT * moved[at] + 4, distance)
        return bytes(out)

    def filled(self, number):
        """The places of a section that the linker would have to fill: where, of which kind, and with which symbol."""
        for section in self.sections:
            if section.kind not in RELOCATIONS or section.info != number:
                continue
            for offset, info, *addend in self.rows(section, RELOCATIONS[section.kind]):
                if info >> 32 >= len(self.symbols):
                    raise broken("a place that the linker fills has no symbol")
                if any(addend):
                    raise broken("a place that the linker fills has an addend beside it")
                yield offset, info % 2**32, self.symbols[info >> 32]

    def needs(self, function):
        """The places of the function's section that the linker would have to fill."""
        for offset, _, symbol in self.filled(function.section):
            yield self.need(offset // SLOT, symbol)

    def need(self, slot, symbol):
        """Returns what a slot needs: a function, data, a number, or what isn't there."""
        section = self.section_at(symbol.section)
        name = symbol.name or (section.name if section else "a number")
        if symbol.section == UNDEFINED:
            return Need(slot, name, "absent")
        if symbol.kind == FUNCTION or section and section.name.startswith(".text"):
            return Need(slot, name.removeprefix(".text."), "function")
        return Need(slot, name, "data" if section else "number")


@dataclass
class Slot:
    opcode: int
    source: int
    offset: int
    immediate: int

    def targets(self, at):
        """The slots to which control goes from here, at this place."""
        after = at + (2 if self.opcode == LDDW else 1)
        if self.opcode == EXIT:
            return []
        if self.opcode == JA:
            return [after + self.offset]
        if self.opcode == JA32:
            return [after + self.immediate]
        if self.opcode & 7 in (5, 6) and self.opcode != CALL:
            return [after, after + self.offset]
        return [after]


def slots_of(code):
    """The instructions by their slots; the second half of one of 64 bits isn't there."""
    found, at = {}, 0
    while at * SLOT < len(code):
        opcode, registers, offset, immediate = struct.unpack_from("<BBhi", code, at * SLOT)
        found[at] = Slot(opcode, registers >> 4, offset, immediate)
        at += 2 if opcode == LDDW else 1
    return found


def edges_of(slots):
    """The control edges but those of turns: for each slot the slots after it (docs/VERIFIER.md, 'Shape rules')."""
    edges = {at: [to for to in it.targets(at) if to in slots] for at, it in slots.items()}
    for at, it in slots.items():
        test = slots.get(at + 1)
        if it.opcode == CALL and it.source == 0 and it.immediate == AGAIN and test and test.opcode in (JEQ, JNE):
            edges[at + 1] = edges[at + 1][1:] if test.opcode == JEQ else edges[at + 1][:1]
    return edges


def cycles(slots):
    """The sets of slots that lie on cycles without a turn, each of slots that reach each other."""
    return parts_of(edges_of(slots))


def parts_of(edges):
    """The sets of slots that reach each other by these edges (Tarjan)."""
    number, low, stack, on_stack, found = {}, {}, [], set(), []
    for start in edges:
        if start in number:
            continue
        walk = [(start, iter(edges[start]))]
        number[start] = low[start] = len(number)
        stack.append(start)
        on_stack.add(start)
        while walk:
            at, rest = walk[-1]
            for to in rest:
                if to not in number:
                    number[to] = low[to] = len(number)
                    stack.append(to)
                    on_stack.add(to)
                    walk.append((to, iter(edges[to])))
                    break
                if to in on_stack:
                    low[at] = min(low[at], number[to])
            else:
                walk.pop()
                if walk:
                    low[walk[-1][0]] = min(low[walk[-1][0]], low[at])
                if low[at] == number[at]:
                    part = set(stack[stack.index(at) :])
                    del stack[stack.index(at) :]
                    on_stack -= part
                    if len(part) > 1 or at in edges[at]:
                        found.append(part)
    return found


@dataclass
class Nest:
    """Slots that reach each other by these edges, and the nests among them that are left without the slot by which they are entered, if
    that is one."""

    edges: dict
    heads: set
    inner: list

    def is_left(self):
        """Whether there is a cycle through its head that enters none of the inner ones."""
        inside = {it for nest in self.inner for it in nest.heads}
        left = {at: [it for it in to if it not in inside] for at, to in self.edges.items() if at not in inside}
        return any(it & self.heads for it in parts_of(left))


def nests_of(edges, depth=0):
    """The cycles by these edges, within each other, up to a depth."""
    return [nest_of(it, edges, depth) for it in parts_of(edges)]


def nest_of(part, edges, depth):
    """Returns a part of the graph with its heads, and the nests in it that pass none of them."""
    own = {at: [it for it in edges[at] if it in part] for at in part}
    heads = {it for at, to in edges.items() if at not in part for it in to if it in part} or {min(part)}
    left = {at: [it for it in to if it not in heads] for at, to in own.items()}
    return Nest(own, heads, nests_of(left, depth + 1) if len(heads) == 1 and depth < MOST_NESTED else [])
