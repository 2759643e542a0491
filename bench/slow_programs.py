#!/usr/bin/env python3
"""Writes a program that takes long to verify.

    bench/slow_programs.py KIND SLOTS NUMBERS REFUSED FILE

KIND is one of
    ways      a loop in which numbers on the stack widen, each only where the one before is at its greatest, and then
              branches, each with two ways to the next
    stores    the same loop, filled with stores in place of branches
    inner     the same in a loop of its own within another one
    callee    the same in a local function that a loop calls
    turned    the first loop, its branches laid out backwards: each in front of the one before
    backward  no loop: branches in a row, laid out so, in which each way adds less than those before it
    spread    the first loop, its numbers widening up and then down, and their sum in all registers and groups that are left
    bytes     the same, filled with stores of bytes in place of branches
    called    the same, filled with calls of a function
    needed    up to thirty numbers, and copies of their sum in all groups that are left: a number widens up and then down as far
              as each of the copies did
    heads     up to five numbers, and loops that share one body: each widens only where all loops before it have settled

SLOTS is how many slots it has at most, NUMBERS how many numbers widen, and REFUSED is `no`, `first` for one that reads an
unset register before the loop, or `last` for one that does after it. FILE is written.
"""
import struct
import sys

LIMIT = (1 << 55) - 1
REGISTERS = (3, 4, 6, 7, 8)


def slot(opcode, dst=0, src=0, offset=0, immediate=0):
    return struct.pack("<BBhi", opcode, dst | src << 4, offset, immediate)


def put(register, number):
    return slot(0xB7, register, 0, 0, number)


END = [put(0, 0), slot(0x95)]


def broken(register):
    """A way on which an unset register is read: r9 is the epoch, any number up to 65,536."""
    return [slot(0x45, 9, 0, 1, 1), slot(0x05, 0, 0, 1), slot(0xBF, 0, register)]


def place(number):
    return -8 * (number + 1)


def again(back):
    """Ends a loop whose head lies that many slots in front."""
    return [put(1, 1), slot(0x85, 0, 0, 0, 3), slot(0x55, 0, 0, -(back + 3))]


def widened(number):
    """Raises a number by one, up to the limit, where the one before it is past the limit."""
    raised = [slot(0x79, 2, 10, place(number)), slot(0x07, 2, 0, 0, 1), slot(0x2D, 2, 5, 1), slot(0x7B, 10, 2, place(number))]
    if number == 0:
        return raised
    return [slot(0x79, 4, 10, place(number - 1)), slot(0xAD, 4, 5, len(raised)), *raised]


def wide(register, number):
    low, high = struct.unpack("<ii", struct.pack("<q", number))
    return [slot(0x18, register, 0, 0, low), slot(0, 0, 0, 0, high)]


def widened_both_ways(number):
    """Raises a number, and then lowers it, where the one before it was lowered: r5 to r8 are the limits."""
    raised = [slot(0x79, 2, 10, place(number)), slot(0x07, 2, 0, 0, 1), slot(0x6D, 2, 5, 1), slot(0x7B, 10, 2, place(number))]
    lowered = [slot(0x79, 2, 10, place(number)), slot(0x17, 2, 0, 0, 1), slot(0xCD, 2, 6, 1), slot(0x7B, 10, 2, place(number))]
    made = [*raised, slot(0x79, 4, 10, place(number)), slot(0xDD, 4, 7, len(lowered)), *lowered]
    if number == 0:
        return made
    return [slot(0x79, 4, 10, place(number - 1)), slot(0x7D, 4, 8, len(made)), *made]


def spread(numbers, room, filled):
    """A loop in which as much as can be changes with each step."""
    body = [*wide(5, LIMIT), *wide(6, -LIMIT), *wide(7, LIMIT // 2), *wide(8, -LIMIT // 2), put(3, 0)]
    for number in range(numbers):
        body += widened_both_ways(number)
    for number in range(numbers):
        body += [slot(0x79, 2, 10, place(number)), slot(0x0F, 3, 2)]
    body += [slot(0x7B, 10, 3, place(number)) for number in range(numbers, 63)]
    body += [slot(0xBF, register, 3) for register in (0, 1, 2, 4, 6, 7, 8)]
    while len(body) + len(filled) + 10 <= room:
        body += filled
    body += [put(register, 0) for register in (0, 2, 3, 4, 6, 7, 8)]
    return body + again(len(body))


def stepped(number):
    """Raises a number by one more than all copies of the sum allow, and then lowers it so: r3 is what they allow."""
    raised = [*wide(4, number * LIMIT), slot(0xBF, 2, 3), slot(0x1F, 2, 4), slot(0x07, 2, 0, 0, 1)]
    raised += [slot(0xC5, 2, 0, 2, 0), slot(0x6D, 2, 5, 1), slot(0x7B, 10, 2, place(number))]
    lowered = [*wide(4, number * (LIMIT + 1)), slot(0xBF, 2, 3), slot(0x0F, 2, 4), slot(0x17, 2, 0, 0, 1)]
    lowered += [slot(0x65, 2, 0, 2, 0), slot(0xCD, 2, 6, 1), slot(0x7B, 10, 2, place(number))]
    made = [*raised, slot(0x79, 4, 10, place(number)), slot(0xDD, 4, 7, len(lowered)), *lowered]
    if number == 0:
        return made
    return [slot(0x79, 4, 10, place(number - 1)), slot(0x7D, 4, 8, len(made)), *made]


def needed(numbers, room):
    """A loop in which as much as can be changes with each step, and the next step hangs on all of it."""
    numbers = min(numbers, 30)
    body = [*wide(5, LIMIT), *wide(6, -LIMIT), *wide(7, LIMIT // 2), *wide(8, -LIMIT // 2), put(3, 0)]
    for number in range(numbers):
        body += [slot(0x79, 2, 10, place(number)), slot(0x0F, 3, 2)]
    copies = range(numbers, 63)
    body += [slot(0x7B, 10, 3, place(copy)) for copy in copies]
    steps = [it for number in range(numbers) for it in stepped(number)]
    after = 3 * len(copies) + len(steps)
    while len(body) + len(WAYS) + after + 16 <= room:
        body += WAYS
    body += [slot(0x79, 3, 10, place(numbers))]
    for copy in copies:
        body += [slot(0x79, 4, 10, place(copy)), slot(0x6D, 3, 4, after - 2), slot(0xCD, 3, 4, after - 3)]
        after -= 3
    body += steps + [put(register, 0) for register in (2, 3, 4)]
    return body + again(len(body))


def heads(begin, slots, numbers, last):
    """A body to which many heads lead, each with less taken off the numbers than the one before, and from which each is led to."""
    numbers = min(numbers, len(REGISTERS))
    count = slots // 30
    size = 3 * numbers + 1
    first = len(begin) + numbers + 2 * count + 1
    shared = first + count * size
    made = [*begin, *clear(numbers)]
    for turn in range(count):
        made += [slot(0x45, 9, 0, 1, 1), slot(0x05, 0, 0, first + turn * size - len(made) - 2)]
    made += [slot(0x05, 0, 0, first - len(made) - 1)]
    body = wide(5, LIMIT + 1)
    for number, register in zip(range(numbers), REGISTERS):
        raised = [slot(0xBF, 2, register), slot(0x07, 2, 0, 0, 1), slot(0x6D, 2, 5, 1), slot(0x7B, 10, 2, place(number))]
        if number:
            raised = [slot(0x79, 0, 10, place(number - 1)), slot(0xDD, 0, 5, len(raised)), *raised]
        body += raised
    body = WAYS * ((slots - shared - len(body) - 3 * count - len(last)) // len(WAYS)) + body
    end = shared + len(body) + 3 * count
    for turn in range(count):
        for number, register in zip(range(numbers), REGISTERS):
            made += [slot(0x79, register, 10, place(number)), slot(0x07, register, 0, 0, turn + 1 - count)]
            made += [slot(0xC5, register, 0, end - len(made) - 1)]
        made += [slot(0x05, 0, 0, shared - len(made) - 1)]
    made += body
    for turn in range(count):
        made += again(len(made) - (first + turn * size))
    return made + last


def backwards(room, added):
    """Branches in a row, each laid out in front of the one before; where more of them follow, other numbers are added."""
    count = room // 4
    starts = [4 * (count - 1 - turn) for turn in range(count)] + [4 * count]
    body = [slot(0x05, 0, 0, starts[0])] + [b""] * (4 * count)
    for turn in range(count):
        at, to = starts[turn], starts[turn + 1]
        number = added(count - 1 - turn)
        body[at + 1 : at + 5] = [slot(0x45, 9, 0, 2, 1), slot(0x07, 3, 0, 0, number), slot(0x05, 0, 0, to - at - 3), slot(0x05, 0, 0, to - at - 4)]
    return body


def loop(numbers, room, filled):
    """A loop of that many slots at most."""
    low, high = struct.unpack("<ii", struct.pack("<Q", LIMIT))
    body = [slot(0x18, 5, 0, 0, low), slot(0, 0, 0, 0, high), put(3, 0)]
    for number in range(numbers):
        body += widened(number)
    for number in range(numbers):
        body += [slot(0x79, 2, 10, place(number)), slot(0x0F, 3, 2)]
    if filled is None:
        body += backwards(room - len(body) - 7, lambda after: 1)
    while filled and len(body) + len(filled) + 6 <= room:
        body += filled
    body += [put(register, 0) for register in (2, 3, 4)]
    return body + again(len(body))


def clear(numbers):
    return [slot(0x7A, 10, 0, place(number)) for number in range(numbers)]


WAYS = [slot(0x45, 9, 0, 2, 1), slot(0x07, 3, 0, 0, 1), slot(0x07, 3)]
STORES = [slot(0x7B, 10, 3, -512)]
BYTES = [slot(0x73, 10, 9, -512)]
# With what a loop is filled; with None it is with branches laid out backwards.
FILLED = {"ways": WAYS, "stores": STORES, "turned": None}


def program(kind, slots, numbers, refused):
    """Returns the slots of a program of a kind, with that many slots and numbers."""
    begin = [slot(0x79, 9, 1, 8), *(broken(8) if refused == "first" else [])]
    last = [*(broken(2) if refused == "last" else []), *END]
    room = slots - len(begin) - len(last)
    if kind in FILLED:
        cleared = clear(numbers)
        return [*begin, *cleared, *loop(numbers, room - len(cleared), FILLED[kind]), *last]
    if kind == "inner":
        cleared = clear(numbers)
        inner = loop(numbers, room - len(cleared) - 3, WAYS)
        return [*begin, *cleared, *inner, *again(len(inner)), *last]
    if kind == "callee":
        call = [slot(0xBF, 1, 9), slot(0x85, 0, 1, 0, 3 + len(last)), *again(2)]
        own = [slot(0xBF, 9, 1), *clear(numbers)]
        function = [*own, *loop(numbers, room - len(own) - 7, WAYS), *END]
        return [*begin, *call, *last, *function]
    if kind in ("spread", "bytes"):
        cleared = clear(63)
        return [*begin, *cleared, *spread(numbers, room - len(cleared), WAYS if kind == "spread" else BYTES), *last]
    if kind == "called":
        cleared = clear(63)
        own = [*begin, *cleared]
        made = [*own, *spread(numbers, room - len(cleared) - len(END), [b""]), *last]
        return [it or slot(0x85, 0, 1, 0, len(made) - at - 1) for at, it in enumerate(made)] + END
    if kind == "needed":
        cleared = clear(63)
        return [*begin, *cleared, *needed(numbers, room - len(cleared)), *last]
    if kind == "heads":
        return heads(begin, slots, numbers, last)
    if kind == "backward":
        return [*begin, put(3, 0), *backwards(room - 2, lambda after: 1 << min(24, after)), *last]
    sys.exit(__doc__)


def main(words):
    if len(words) != 5:
        sys.exit(__doc__)
    kind, slots, numbers, refused, file = words
    made = program(kind, int(slots), int(numbers), refused)
    with open(file, "wb") as out:
        out.write(b"".join(made))
    print(f"{file}: {len(made)} slots")


if __name__ == "__main__":
    main(sys.argv[1:])
