"""Calls of the library that a compiler makes by itself: the code that stands there.

It calls for a copy of many bytes, or for bytes that are set. A called function could do that as well, but may not write to the locals
of its caller (docs/MACHINE.md, 'Guards'). So each call becomes loads and stores of words in its place. Their number is known: the
compiler calls for a constant length alone. It calls for a signed division too, which the machine has and older processors of BPF
haven't: that becomes one instruction.
"""
import struct

from commands.cc.program import CALL, EXIT, JA32, LDDW, MOST_SLOTS, SLOT, NoProgram, broken, slots_of

# The names of each, as gcc calls them and as compilers.py has clang call them.
COPIES, SETS = ("memcpy", "copies_"), ("memset", "sets_")
QUOTIENTS, REMAINDERS = ("__divdi3", "divides_"), ("__moddi3", "remains_")
MADE = (*COPIES, *SETS, *QUOTIENTS, *REMAINDERS)
SIZES = {8: 0x18, 4: 0x00, 2: 0x08, 1: 0x10}
LOAD, STORE = 0x61, 0x63
MOV, MOV32, MOVE, AND, MUL, DIV, MOD = 0xB7, 0xB4, 0xBF, 0x57, 0x2F, 0x3F, 0x9F
SIGNED = 1
LENGTH = 3
BYTES = 0x01010101
JUMPS = (5, 6)
# So many bytes are copied by as many slots as a program may have.
MOST = 4 * MOST_SLOTS


def slot(opcode, dst=0, src=0, offset=0, immediate=0):
    return struct.pack("<BBhi", opcode, dst | src << 4, offset, immediate)


def pieces(length):
    """Where the words of 8, 4, 2 and 1 bytes begin that make up this length, and their sizes."""
    at = 0
    for size in SIZES:
        while length - at >= size:
            yield at, size
            at += size


def copy_code(length):
    """Copies from r2 to r1, and answers r1, as memcpy does."""
    words = [slot(LOAD | SIZES[size], 0, 2, at) + slot(STORE | SIZES[size], 1, 0, at) for at, size in pieces(length)]
    return b"".join(words) + slot(MOVE, 0, 1)


def set_code(length):
    """Sets bytes from r1 on to the low byte of r2, and answers r1, as memset does."""
    whole = slot(AND, 2, 0, 0, 255) + slot(LDDW, 0, 0, 0, BYTES) + slot(0, 0, 0, 0, BYTES) + slot(MUL, 2, 0)
    words = [slot(STORE | SIZES[size], 1, 2, at) for at, size in pieces(length)]
    return whole + b"".join(words) + slot(MOVE, 0, 1)


def division_code(opcode):
    """Divides r1 by r2, both signed, and answers the quotient or the remainder."""
    return slot(MOVE, 0, 1) + slot(opcode, 0, 2, SIGNED)


def target_of(at, it):
    """The slot to which a jump or a local call leads; none for any other instruction."""
    if it.opcode == CALL:
        return at + 1 + it.immediate if it.source == 1 else None
    if it.opcode & 7 not in JUMPS or it.opcode == EXIT:
        return None
    return at + 1 + (it.immediate if it.opcode == JA32 else it.offset)


def written(it, code, at):
    """The registers that an instruction writes."""
    if it.opcode == CALL:
        return set(range(6))
    return {code[SLOT * at + 1] & 15} if it.opcode & 7 in (0, 1, 4, 7) else set()


def length_at(code, slots, targets, call):
    """The constant that stands in the register of the length at a call; none where it isn't seen right before it."""
    register, before = LENGTH, [it for it in slots if it < call]
    for at in [] if call in targets else reversed(before):
        it, source = slots[at], code[SLOT * at + 1] >> 4
        if it.opcode & 7 in JUMPS and it.opcode != CALL:
            return None
        if register in written(it, code, at):
            if it.opcode == MOVE and code[SLOT * at + 1] & 15 == register:
                register = source
            else:
                return it.immediate if it.opcode in (MOV, MOV32) and it.immediate >= 0 else None
        if at in targets:
            return None
    return None


def expanded(code, calls):
    """The code in which calls, names by their slots, are written out; and where each slot has gone."""
    slots = slots_of(code)
    targets = {target_of(at, it) for at, it in slots.items() if at not in calls}
    out, places = bytearray(), {}
    for at, it in slots.items():
        places[at] = len(out) // SLOT
        size = 2 if it.opcode == LDDW else 1
        out += written_out(code, slots, targets, at, calls[at]) if at in calls else code[SLOT * at : SLOT * (at + size)]
    # Compilers let a path that C leaves undefined lead to the end, which the verifier refuses.
    places[len(code) // SLOT] = len(out) // SLOT
    for at, it in slots.items():
        if calls and at not in calls:
            move_jump(out, places, at, it)
    del places[len(code) // SLOT]
    return bytes(out), places


def written_out(code, slots, targets, at, name):
    """Returns the code in place of a call: of a division, or of a function of memory for a constant length that isn't too large."""
    if name in QUOTIENTS + REMAINDERS:
        return division_code(DIV if name in QUOTIENTS else MOD)
    length = length_at(code, slots, targets, at)
    if length is None:
        raise NoProgram(
            f"the compiler calls {name} for a length that isn't a constant there",
            "set and copy field by field, or by memcpy and memset of checker.h",
        )
    if length > MOST:
        raise NoProgram(
            f"the compiler calls {name} for {length} bytes, and at most {MOST} are written out",
            "several smaller structs; memcpy and memset of checker.h take any length",
        )
    return copy_code(length) if name in COPIES else set_code(length)


def move_jump(out, places, at, it):
    """Lets a jump or a local call lead to where its target has gone."""
    target = target_of(at, it)
    if target is None:
        return
    if target not in places:
        raise broken("a jump leads out of the function")
    by_immediate = it.opcode in (CALL, JA32)
    distance = places[target] - places[at] - 1
    struct.pack_into("<i" if by_immediate else "<h", out, SLOT * places[at] + (4 if by_immediate else 2), distance)
