"""What a checker has in memory: variables, tables, strings and initializers, each at an address of the program's own memory.

A program with guards has 65,536 bytes of its own (docs/MACHINE.md, 'Memory'), which are zeros when a run begins. The sections to
which the code refers are placed there one after the other, and stores in front of the code give them their first bytes.
"""
import re
import struct

from commands.cc.program import LDDW, MOST_SLOTS, SLOT, FunctionTaken, NoProgram, broken

MEMORY, ROOM = 1 << 40, 65536
# One base reaches all of it: a distance is a number of 16 bits with a sign.
BASE = MEMORY + ROOM // 2
NO_BITS, LEAST_ALIGNED = 8, 8
# A 64-bit immediate, a word in memory of 64 bits, as the two compilers number them.
OF_INSTRUCTION, OF_WORD = 1, (2, 12)
STORE_WORD, STORE_DOUBLE = 0x62, 0x7A
# r1 has the context when a program starts; this register is free.
REGISTER = 2
HALF = 1 << 31
# How many variables are named where all are too large.
SHOWN = 6


def signed(value, bits):
    """A number of that many bits, read as signed."""
    return value - (1 << bits) if value >> (bits - 1) else value


class Memory:
    """Where the sections that a function needs lie in memory, and what stands there first."""

    def __init__(self, object_, function):
        self.object, self.places, self.size = object_, {}, 0
        self.filled = list(object_.filled(function.section))
        waiting = [number for _, _, symbol in self.filled for number in self.of_symbol(symbol)]
        while waiting:
            number = waiting.pop(0)
            if number in self.places:
                continue
            self.place(number)
            waiting += [other for _, _, symbol in object_.filled(number) for other in self.of_symbol(symbol)]
        if self.size > ROOM:
            raise NoProgram(
                f"its variables, tables and strings take {self.size} bytes, and a program has {ROOM}",
                f"the largest: {', '.join(self.largest())}",
                "smaller buffers, or one for several uses",
            )
        self.bytes = bytearray(self.size)
        for number, start in self.places.items():
            self.put(number, start)

    def largest(self):
        """What takes most of the memory, each with its bytes."""
        sections = sorted((self.object.sections[it] for it in self.places), key=lambda it: -it.size)
        return [f"{re.sub('^[.](bss|data|rodata)[.]?', '', it.name) or 'strings'} {it.size}" for it in sections[:SHOWN]]

    def of_symbol(self, symbol):
        """The section of a symbol of data, or none."""
        return [symbol.section] if self.object.need(0, symbol).kind == "data" else []

    def place(self, number):
        """Gives a section its place, as its alignment asks."""
        section = self.object.sections[number]
        align = max(section.align, LEAST_ALIGNED)
        self.places[number] = self.size + -self.size % align
        self.size = self.places[number] + section.size

    def put(self, number, start):
        """The first bytes of a section, and the addresses among them."""
        section = self.object.sections[number]
        if section.kind != NO_BITS:
            self.bytes[start : start + section.size] = self.object.content(section)
        for offset, kind, symbol in self.object.filled(number):
            self.fill(start + offset, kind, symbol)

    def address(self, symbol, addend):
        """The address at this distance from a symbol."""
        if symbol.value and not self.object.from_symbols:
            raise NoProgram(
                f"the compiler names {symbol.name or 'a symbol'} inside of its section, and assemblers differ in what that means",
                "no attribute section(..) of a variable, and no asm outside of functions; or clang",
            )
        return (MEMORY + self.places[symbol.section] + symbol.value + addend) % 2**64

    def fill(self, at, kind, symbol):
        """An address among the first bytes."""
        need = self.object.need(0, symbol)
        if need.kind == "function":
            raise FunctionTaken(need.name)
        if kind not in OF_WORD or need.kind != "data" or at + 8 > len(self.bytes):
            raise broken(f"a place of its data is filled with {need.name}, of kind {kind}")
        (addend,) = struct.unpack_from("<Q", self.bytes, at)
        struct.pack_into("<Q", self.bytes, at, self.address(symbol, addend))

    def filled_code(self, code):
        """The code of the function's section with the addresses of its data."""
        out = bytearray(code)
        for offset, kind, symbol in self.filled:
            if not self.of_symbol(symbol):
                continue
            if kind != OF_INSTRUCTION or offset % SLOT or offset + 2 * SLOT > len(out) or out[offset] != LDDW:
                raise broken(f"a place of its code is filled with {symbol.name or 'a number'}, of kind {kind}")
            low, high = (struct.unpack_from("<I", out, offset + at)[0] for at in (4, 12))
            address = self.address(symbol, signed(high << 32 | low, 64))
            struct.pack_into("<I", out, offset + 4, address % 2**32)
            struct.pack_into("<I", out, offset + 12, address >> 32)
        return bytes(out)

    def beginning(self):
        """The instructions that give the memory its first bytes, where these aren't zeros."""
        stores = []
        for at in range(0, len(self.bytes), 8):
            (value,) = struct.unpack("<Q", self.bytes[at : at + 8].ljust(8, b"\0"))
            stores += stores_of(at, value)
        if not stores:
            return b""
        base = struct.pack("<BBhI", LDDW, REGISTER, 0, BASE % 2**32) + struct.pack("<BBhI", 0, 0, 0, BASE >> 32)
        return base + b"".join(stores)


def store(opcode, at, number):
    """A store of a constant at a place of the memory."""
    return struct.pack("<BBhi", opcode, REGISTER, MEMORY + at - BASE, number)


def stores_of(at, value):
    """The stores of eight bytes: one, or two where they are more than a number of 32 bits says."""
    if value == 0:
        return []
    if -HALF <= signed(value, 64) < HALF:
        return [store(STORE_DOUBLE, at, signed(value, 64))]
    halves = [(at, value % 2**32), (at + 4, value >> 32)]
    return [store(STORE_WORD, place, signed(half, 32)) for place, half in halves if half]


def with_data(code, beginning):
    """The whole program: the stores, and then the code; NoProgram where these are too many slots."""
    slots = (len(beginning) + len(code)) // SLOT
    if slots > MOST_SLOTS:
        raise NoProgram(
            f"the first bytes of its data take {len(beginning) // SLOT} slots, and with them it has {slots}: at most {MOST_SLOTS}",
            "let the checker compute large tables into a variable when it begins, and leave variables 0 that needn't have a value",
        )
    return beginning + code
