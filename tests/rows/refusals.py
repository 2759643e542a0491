"""What the verifier accepts, with the budget, and what it refuses, with number and slot (docs/VERIFIER.md)."""
from notation import verified

# Programs in one line, where `;` ends an instruction, and the answer of `verify` on 4 sectors.

# Shape

TARGETS = {
    "ja +1; lddw r0, 0; exit": "refused 40 at 0",
    "ja32 +2147483647; exit": "refused 40 at 0",
    "ja32 -2147483648; exit": "refused 40 at 0",
    "exit; ja -3": "refused 40 at 1",
    "mov64 r0, 0; jeq r0, 0, +1; exit": "refused 40 at 1",
    "mov64 r0, 0; jeq32 r0, 0, -3; exit": "refused 40 at 1",
    "ja +5; ja +6; exit": "refused 40 at 0",
    # not reached
    "mov64 r0, 0; exit; ja +9": "refused 40 at 2",
    # before all other rules
    "mov64 r10, 0; call 9; ja +9": "refused 40 at 2",
}

NEXT_SLOTS = {
    "exit; mov64 r0, 0": "refused 41 at 1",
    "mov64 r0, 0": "refused 41 at 0",
    "exit; call 4": "refused 41 at 1",
    "exit; jeq r0, 0, -2": "refused 41 at 1",
    "exit; lddw r0, 0": "refused 41 at 1",
    "lddw r0, 0": "refused 41 at 0",
    "mov64 r10, 0": "refused 41 at 0",
    # a jump needs no next slot, and neither does an exit
    "mov64 r0, 0; ja +1; exit; ja -2": "accepted budget 4",
}

FRAME_POINTER = {
    "mov64 r10, 0; exit": "refused 57 at 0",
    "add64 r10, 1; exit": "refused 57 at 0",
    "mov32 r10, r1; exit": "refused 57 at 0",
    "neg64 r10; exit": "refused 57 at 0",
    "le64 r10; exit": "refused 57 at 0",
    "movsx8to64 r10, r1; exit": "refused 57 at 0",
    "lddw r10, 0; exit": "refused 57 at 0",
    "ldxdw r10, [r1+0]; exit": "refused 57 at 0",
    "ldxsb r10, [r1+0]; exit": "refused 57 at 0",
    # not reached, and before other rules
    "mov64 r0, 0; exit; add64 r10, 1; exit": "refused 57 at 2",
    "call 8; mov64 r10, 0; exit": "refused 57 at 1",
    "call 3; mov64 r10, 0; exit": "refused 57 at 1",
    # a store through it isn't a write of it
    "stdw [r10-8], 1; mov64 r0, 0; exit": "accepted budget 3",
    "stxdw [r10-8], r10; mov64 r0, 0; exit": "accepted budget 3",
}

HELPERS = {
    "call 0; exit": "refused 58 at 0",
    "call 8; exit": "refused 58 at 0",
    "call -1; exit": "refused 58 at 0",
    "call 257; exit": "refused 58 at 0",
    "mov64 r0, 0; exit; call 8; exit": "refused 58 at 2",
    "call 3; call 8; exit": "refused 58 at 1",
}

AGAIN = {
    "mov64 r1, 0; call 3; jeq r0, 0, +0; exit": "refused 43 at 1",
    "mov64 r1, 1048577; call 3; jeq r0, 0, +0; exit": "refused 43 at 1",
    "mov64 r1, -1; call 3; jeq r0, 0, +0; exit": "refused 43 at 1",
    "mov64 r1, 1; call 3; jeq r0, 0, +0; exit": "accepted budget 8",
    "mov64 r1, 1; call 3; jne r0, 0, +0; exit": "accepted budget 8",
    "mov64 r1, 1048576; call 3; jeq r0, 0, +0; exit": "accepted budget 4194308",
    # not by an imm of mov64 right in front
    "call 3; jeq r0, 0, +0; exit": "refused 43 at 0",
    "mov32 r1, 1; call 3; jeq r0, 0, +0; exit": "refused 43 at 1",
    "mov64 r2, 1; call 3; jeq r0, 0, +0; exit": "refused 43 at 1",
    "mov64 r1, r2; call 3; jeq r0, 0, +0; exit": "refused 43 at 1",
    "lddw r1, 1; call 3; jeq r0, 0, +0; exit": "refused 43 at 2",
    "mov64 r1, 1; mov64 r2, 0; call 3; jeq r0, 0, +0; exit": "refused 43 at 2",
    # no test of r0 against 0 right after
    "mov64 r1, 1; call 3; exit": "refused 43 at 1",
    "mov64 r1, 1; call 3; mov64 r2, r0; jeq r0, 0, +0; exit": "refused 43 at 1",
    "mov64 r1, 1; call 3; jgt r0, 0, +0; exit": "refused 43 at 1",
    "mov64 r1, 1; call 3; jeq32 r0, 0, +0; exit": "refused 43 at 1",
    "mov64 r1, 1; call 3; jeq r0, 1, +0; exit": "refused 43 at 1",
    "mov64 r1, 1; call 3; jeq r1, 0, +0; exit": "refused 43 at 1",
    "mov64 r2, 0; mov64 r1, 1; call 3; jeq r0, r2, +0; exit": "refused 43 at 2",
    # a jump to the call, or to the test
    "mov64 r1, 1; call 3; jeq r0, 0, -2; exit": "refused 43 at 1",
    "mov64 r1, 1; call 3; jeq r0, 0, -1; exit": "refused 43 at 1",
    "mov64 r1, 1; call 3; jeq r0, 0, +0; mov64 r0, 0; exit; ja -5": "refused 43 at 1",
    # a jump to the mov64 is allowed, and makes the loop
    "mov64 r1, 2; call 3; jeq r0, 0, +1; ja -4; exit": "accepted budget 15",
    "mov64 r1, 2; call 3; jne r0, 0, -3; exit": "accepted budget 12",
    # not reached
    "mov64 r0, 0; exit; call 3; exit": "refused 43 at 2",
    # the lowest, and before loops
    "mov64 r1, 0; call 3; jeq r0, 0, +0; call 3; ja -1": "refused 43 at 1",
}

LOOPS = {
    "mov64 r0, 0; ja -2": "refused 42 at 0",
    "mov64 r0, 0; ja +0; ja -2": "refused 42 at 1",
    "ja -1": "refused 42 at 0",
    "mov64 r0, 0; jeq r0, 0, -1; exit": "refused 42 at 1",
    "mov64 r0, 0; jeq r0, 1, -2; exit": "refused 42 at 0",
    "mov64 r0, 0; exit; ja -1": "refused 42 at 2",
    # the loop is on the edge for r0 equal to 0
    "mov64 r1, 1; call 3; jne r0, 0, +1; ja -4; exit": "refused 42 at 0",
    "mov64 r1, 1; call 3; jeq r0, 0, -3; exit": "refused 42 at 0",
    # a second loop without a call in the loop that has one
    "mov64 r1, 2; call 3; jeq r0, 0, +2; jeq r0, 1, -1; ja -5; exit": "refused 42 at 3",
}

# Each call of helper 3 counts with its K, reached or not; the longest path begins at any slot that is reached.
BUDGETS = {
    "mov64 r0, 0; exit": "accepted budget 2",
    "lddw r0, 0; exit": "accepted budget 2",
    "mov64 r0, 0; exit; mov64 r0, 0; mov64 r0, 0; exit": "accepted budget 2",
    "mov64 r0, 0; exit; mov64 r1, 9; call 3; jeq r0, 0, +0; exit": "accepted budget 20",
    "mov64 r0, 0; jeq r0, 0, +1; mov64 r0, 0; exit": "accepted budget 4",
    "mov64 r0, 0; ja +1; mov64 r0, 0; exit": "accepted budget 3",
    "ldxdw r0, [r1+16]; exit": "accepted budget 2",
}

# Local calls: nested at most four deep, not recursive, each entry an instruction.
LOCAL_CALLS = {
    "exit; callf +1; exit; callf -3; exit": "refused 44 at 1",
    # a loop and recursion
    "callf -1; mov64 r0, 0; ja -2": "refused 42 at 1",
    "callf +1; exit": "refused 40 at 0",
    "exit; callf -2": "refused 41 at 1",
    # (1 + 2) * (2 + 4)
    "callf +1; exit; mov64 r1, 2; call 3; jne r0, 0, -3; exit": "accepted budget 18",
    "callf +2; exit; mov64 r1, 2; call 3; jne r0, 0, -3; exit": "refused 43 at 3",
    # both calls weigh 3
    "callf +2; callf +1; exit; mov64 r0, 0; exit": "accepted budget 7",
}

# Values

UNSET = {
    "exit": "refused 50 at 0",
    "mov64 r0, r2; exit": "refused 50 at 0",
    "add64 r0, 1; exit": "refused 50 at 0",
    "mov64 r0, 1; add64 r0, r3; exit": "refused 50 at 1",
    "neg64 r0; exit": "refused 50 at 0",
    "be32 r0; exit": "refused 50 at 0",
    "jeq r2, 0, +0; mov64 r0, 0; exit": "refused 50 at 0",
    "mov64 r0, 0; jset32 r0, r2, +0; exit": "refused 50 at 1",
    "ldxb r0, [r3+0]; exit": "refused 50 at 0",
    "stb [r3+0], 1; mov64 r0, 0; exit": "refused 50 at 0",
    "stxb [r10-1], r3; mov64 r0, 0; exit": "refused 50 at 0",
    "mov64 r1, 1; call 5; mov64 r0, r1; exit": "refused 50 at 2",
    "mov64 r5, 1; mov64 r1, 1; call 5; mov64 r0, r5; exit": "refused 50 at 3",
    "mov64 r6, 1; mov64 r1, 1; call 5; mov64 r0, r6; exit": "accepted budget 5",
    "mov64 r1, 1; call 7; exit": "refused 50 at 1",
    "call 2; exit": "refused 50 at 0",
    # set on one way only
    "ldxdw r2, [r1+8]; jeq r2, 0, +1; mov64 r0, 1; exit": "refused 50 at 3",
    # r0 of a pointer and of a number
    "ldxdw r2, [r1+8]; mov64 r0, 1; jeq r2, 0, +1; mov64 r0, r1; exit": "refused 50 at 4",
    # a slot that isn't reached isn't tested
    "mov64 r0, 0; exit; mov64 r0, r5; exit": "accepted budget 2",
    # an edge that is never taken passes nothing
    "mov64 r0, 3; jge r0, 4, +1; exit; mov64 r0, r5; exit": "accepted budget 4",
}

BYTES = {
    "ldxb r0, [r10-1]; exit": "refused 51 at 0",
    "sth [r10-2], 1; ldxw r0, [r10-4]; exit": "refused 51 at 1",
    "stb [r10-1], 7; ldxb r0, [r10-1]; exit": "accepted budget 3",
    "stxdw [r10-8], r1; ldxdw r0, [r10-12]; exit": "refused 51 at 1",
    "ldxdw r0, [r1+8]; jeq r0, 0, +1; stb [r10-1], 7; ldxb r0, [r10-1]; exit": "refused 51 at 3",
    # stored on both ways
    "ldxdw r0, [r1+8]; jeq r0, 0, +2; stb [r10-1], 7; ja +1; stb [r10-1], 8; ldxb r0, [r10-1]; exit": "accepted budget 6",
    # what stands over the halves of two pointers leaves sixteen written bytes
    (
        "stxdw [r10-16], r1; stxdw [r10-8], r1; stdw [r10-12], 7; ldxdw r0, [r10-16]; ldxdw r0, [r10-8]; exit"
    ): "accepted budget 6",
}

PLACES = {
    "mov64 r1, 0; call 1; ldxb r0, [r0+0]; exit": "refused 52 at 2",
    "mov64 r1, 0; call 1; stb [r0+0], 1; exit": "refused 52 at 2",
    "mov64 r2, 5; ldxb r0, [r2+0]; exit": "refused 52 at 1",
    "mov64 r2, 5; stb [r2+0], 1; exit": "refused 52 at 1",
    "lddw r1, 18446744073709551615; ldxdw r0, [r1+0]; exit": "refused 52 at 2",
    "lddw r2, 0x200000000; stdw [r2+0], 5; exit": "refused 52 at 2",
    "ldxdw r0, [r1+24]; exit": "accepted budget 2",
    "ldxdw r0, [r1+25]; exit": "refused 52 at 0",
    "ldxb r0, [r1-1]; exit": "refused 52 at 0",
    "ldxb r0, [r1+31]; exit": "accepted budget 2",
    "ldxb r0, [r1+32]; exit": "refused 52 at 0",
    "stdw [r10-8], 7; mov64 r0, 0; exit": "accepted budget 3",
    "stdw [r10-7], 7; mov64 r0, 0; exit": "refused 52 at 0",
    "stb [r10+0], 7; mov64 r0, 0; exit": "refused 52 at 0",
    "stb [r10-512], 7; mov64 r0, 0; exit": "accepted budget 3",
    "stb [r10-513], 7; mov64 r0, 0; exit": "refused 52 at 0",
    "ldxb r0, [r10+0]; exit": "refused 52 at 0",
}

WRITES = {
    "stb [r1+0], 1; mov64 r0, 0; exit": "refused 53 at 0",
    "stxb [r1+0], r1; mov64 r0, 0; exit": "refused 53 at 0",
    "stdw [r1+40], 7; mov64 r0, 0; exit": "refused 53 at 0",
    "stdw [r1-8], 7; mov64 r0, 0; exit": "refused 53 at 0",
    "mov64 r1, 0; call 1; jeq r0, 0, +1; stb [r0+0], 1; mov64 r0, 0; exit": "refused 53 at 3",
    "mov64 r1, 0; call 1; jeq r0, 0, +1; stb [r0+512], 1; mov64 r0, 0; exit": "refused 53 at 3",
}

POINTERS = {
    "mov64 r2, 0; add64 r2, r1; mov64 r0, 0; exit": "refused 54 at 1",
    "mov64 r2, r10; add64 r2, -512; add64 r2, -1; mov64 r0, 0; exit": "refused 54 at 2",
    "mov64 r2, r10; add64 r2, 1; mov64 r0, 0; exit": "refused 54 at 1",
    "mov64 r2, r10; sub64 r2, 513; mov64 r0, 0; exit": "refused 54 at 1",
    "mov64 r2, r10; sub64 r2, 512; mov64 r0, 0; exit": "accepted budget 4",
    "mov64 r2, r10; sub64 r2, -1; mov64 r0, 0; exit": "refused 54 at 1",
    "add64 r1, 32; mov64 r0, 0; exit": "accepted budget 3",
    "add64 r1, 33; mov64 r0, 0; exit": "refused 54 at 0",
    "add64 r1, -1; mov64 r0, 0; exit": "refused 54 at 0",
    "sub64 r1, 1; mov64 r0, 0; exit": "refused 54 at 0",
    "add64 r1, 8; sub64 r1, 8; ldxdw r0, [r1+0]; exit": "accepted budget 4",
    "mul64 r1, 2; mov64 r0, 0; exit": "refused 54 at 0",
    "add32 r1, 4; mov64 r0, 0; exit": "refused 54 at 0",
    "mov32 r2, r1; mov64 r0, 0; exit": "refused 54 at 0",
    "movsx32to64 r2, r1; mov64 r0, 0; exit": "refused 54 at 0",
    "neg64 r1; mov64 r0, 0; exit": "refused 54 at 0",
    "le64 r1; mov64 r0, 0; exit": "refused 54 at 0",
    "xor64 r1, r1; mov64 r0, 0; exit": "refused 54 at 0",
    "mov64 r2, r1; sub64 r2, r1; mov64 r0, 0; exit": "refused 54 at 1",
    "mov64 r1, 0; call 1; add64 r0, 1; mov64 r0, 0; exit": "refused 54 at 2",
    "mov64 r1, 0; call 1; add64 r0, 0; mov64 r0, 0; exit": "refused 54 at 2",
    # a number that isn't constant moves a pointer to a sector, and no other
    "ldxdw r2, [r1+8]; add64 r1, r2; mov64 r0, 0; exit": "refused 54 at 1",
    "ldxb r2, [r1+8]; mov64 r3, r10; sub64 r3, r2; mov64 r0, 0; exit": "refused 54 at 2",
}

NUMBERS = {
    "mov64 r0, r1; exit": "refused 55 at 1",
    "mov64 r0, r10; exit": "refused 55 at 1",
    "mov64 r1, 0; call 1; exit": "refused 55 at 2",
    "jeq r1, 0, +0; mov64 r0, 0; exit": "refused 55 at 0",
    "jne r10, 0, +0; mov64 r0, 0; exit": "refused 55 at 0",
    "jset r1, 1, +0; mov64 r0, 0; exit": "refused 55 at 0",
    "mov64 r1, 0; call 1; jeq32 r0, 0, +0; mov64 r0, 0; exit": "refused 55 at 2",
    "mov64 r2, 0; mov64 r1, 0; call 1; mov64 r2, 0; jeq r0, r2, +0; mov64 r0, 0; exit": "refused 55 at 4",
    "mov64 r1, 0; call 1; jeq r0, r0, +0; mov64 r0, 0; exit": "refused 55 at 2",
    "mov64 r1, 0; call 1; jne r0, 1, +0; mov64 r0, 0; exit": "refused 55 at 2",
    "mov64 r1, 0; call 1; jgt r0, 0, +0; mov64 r0, 0; exit": "refused 55 at 2",
    # a sector that was tested is no longer one that may be null
    "mov64 r1, 0; call 1; jeq r0, 0, +1; jeq r0, 0, +0; mov64 r0, 0; exit": "refused 55 at 3",
    # spilled pointers
    "stxdw [r10-8], r1; ldxb r0, [r10-8]; ldxdw r0, [r2+0]; exit": "refused 55 at 1",
    "stxdw [r10-8], r1; ldxsw r0, [r10-8]; exit": "refused 55 at 1",
    "stdw [r10-16], 7; stxdw [r10-8], r1; ldxdw r0, [r10-12]; exit": "refused 55 at 2",
    "stxdw [r10-12], r1; mov64 r0, 0; exit": "refused 55 at 0",
    "stxw [r10-8], r1; mov64 r0, 0; exit": "refused 55 at 0",
    "stxdw [r10-8], r1; ldxdw r2, [r10-8]; ldxdw r0, [r2+0]; exit": "accepted budget 4",
    "stxdw [r10-8], r10; ldxdw r2, [r10-8]; stb [r2-9], 1; ldxb r0, [r10-9]; exit": "accepted budget 5",
    "stxdw [r10-8], r1; stb [r10-8], 1; ldxb r0, [r10-1]; exit": "accepted budget 4",
    "stxdw [r10-8], r1; stb [r10-8], 1; ldxdw r2, [r10-8]; ldxdw r0, [r2+0]; exit": "refused 52 at 3",
}

ARGUMENTS = {
    "call 1; mov64 r0, 0; exit": "refused 56 at 0",
    "call 4; exit": "refused 56 at 0",
    "call 5; exit": "refused 56 at 0",
    "call 6; exit": "refused 56 at 0",
    "mov64 r2, 0; call 7; exit": "refused 56 at 1",
    "mov64 r2, r1; mov64 r1, 0; call 7; exit": "refused 56 at 2",
    "mov64 r1, 0; call 1; mov64 r1, r0; call 4; exit": "refused 56 at 3",
}

# `copy`: r1 the position, r2 where to, r3 the length
COPY = "mov64 r2, {to}; {moved}mov64 r1, 0; {length}; call 2; ldxdw r0, [r10-8]; exit"

COPIES = {
    COPY.format(to="r10", moved="add64 r2, -8; ", length="mov64 r3, 8"): "accepted budget 7",
    COPY.format(to="r10", moved="add64 r2, -512; ", length="mov64 r3, 512"): "accepted budget 7",
    COPY.format(to="r10", moved="add64 r2, -8; ", length="mov64 r3, 7"): "refused 51 at 5",
    COPY.format(to="r10", moved="add64 r2, -8; ", length="mov64 r3, 9"): "refused 52 at 4",
    COPY.format(to="r10", moved="add64 r2, -8; ", length="mov64 r3, 0"): "refused 56 at 4",
    COPY.format(to="r10", moved="add64 r2, -8; ", length="mov64 r3, 513"): "refused 56 at 4",
    COPY.format(to="r10", moved="add64 r2, -8; ", length="ldxb r3, [r10-8]"): "refused 51 at 3",
    COPY.format(to="r10", moved="", length="mov64 r3, 8"): "refused 52 at 3",
    COPY.format(to="r1", moved="", length="mov64 r3, 8"): "refused 56 at 3",
    COPY.format(to="0", moved="", length="mov64 r3, 8"): "refused 56 at 3",
    # a length between 1 and 512 that isn't constant
    "ldxb r3, [r1+0]; or64 r3, 1; mov64 r2, r10; add64 r2, -512; mov64 r1, 0; call 2; exit": "refused 56 at 5",
    # a pointer is partly written over
    (
        "stxdw [r10-8], r1; mov64 r2, r10; add64 r2, -8; mov64 r1, 0; mov64 r3, 4; call 2; ldxdw r0, [r10-8]; exit"
    ): "accepted budget 8",
}


# Branches: an index r6 of 0..65536 is tested before it is added to the address of a sector

SKIPPED = (
    "ldxdw r6, [r1+8]; mov64 r1, 0; call 1; jeq r0, 0, +3; {test}, +2; add64 r0, r6; ldxb r0, [r0+0]; "
    "mov64 r0, 0; exit"
)
ENTERED = (
    "ldxdw r6, [r1+8]; mov64 r1, 0; call 1; jeq r0, 0, +4; {test}, +1; ja +2; add64 r0, r6; ldxb r0, [r0+0]; "
    "mov64 r0, 0; exit"
)

# The test is taken where the index is too large.
TESTS_THAT_SKIP = {
    "jge r6, 512": "accepted budget 9",
    "jge r6, 513": "refused 52 at 6",
    "jgt r6, 511": "accepted budget 9",
    "jgt r6, 512": "refused 52 at 6",
    "jne r6, 7": "accepted budget 9",
    "jne r6, 512": "refused 52 at 6",
    "jgt r6, 65535": "refused 52 at 6",
    "jgt r6, 65536": "refused 54 at 5",
    # the end of the range is cut off
    "jeq r6, 65536": "refused 52 at 6",
    "jeq r6, 0": "refused 54 at 5",
    "jeq r6, 512": "refused 54 at 5",
    # signed tests as well
    "jsge r6, 512": "accepted budget 9",
    "jsge r6, 513": "refused 52 at 6",
    "jsgt r6, 511": "accepted budget 9",
    "jsgt r6, -1": "accepted budget 9",
    # these refine nothing
    "jge32 r6, 512": "refused 54 at 5",
    "jset r6, -512": "refused 54 at 5",
    "jge r6, r6": "refused 54 at 5",
}

# The test is taken where the index is small enough.
TESTS_THAT_ENTER = {
    "jlt r6, 512": "accepted budget 9",
    "jlt r6, 513": "refused 52 at 7",
    "jle r6, 511": "accepted budget 9",
    "jle r6, 512": "refused 52 at 7",
    "jeq r6, 7": "accepted budget 9",
    "jeq r6, 511": "accepted budget 9",
    "jeq r6, 512": "refused 52 at 7",
    "jne r6, 7": "refused 54 at 6",
    "jne r6, 65536": "refused 52 at 7",
    "jslt r6, 512": "accepted budget 9",
    "jslt r6, 513": "refused 52 at 7",
    "jsle r6, 511": "accepted budget 9",
    "jsle r6, 512": "refused 52 at 7",
    "jlt32 r6, 512": "refused 54 at 6",
}

BRANCHES = {
    **{SKIPPED.format(test=test): answer for test, answer in TESTS_THAT_SKIP.items()},
    **{ENTERED.format(test=test): answer for test, answer in TESTS_THAT_ENTER.items()},
}

NULL_TESTS = {
    "mov64 r1, 0; call 1; jeq r0, 0, +1; ldxb r0, [r0+0]; mov64 r0, 0; exit": "accepted budget 6",
    "mov64 r1, 0; call 1; jeq r0, 0, +1; ldxb r0, [r0+511]; mov64 r0, 0; exit": "accepted budget 6",
    "mov64 r1, 0; call 1; jeq r0, 0, +1; ldxb r0, [r0+512]; mov64 r0, 0; exit": "refused 52 at 3",
    "mov64 r1, 0; call 1; jeq r0, 0, +1; ldxb r0, [r0-1]; mov64 r0, 0; exit": "refused 52 at 3",
    "mov64 r1, 0; call 1; jeq r0, 0, +1; ldxdw r0, [r0+504]; mov64 r0, 0; exit": "accepted budget 6",
    "mov64 r1, 0; call 1; jeq r0, 0, +1; ldxdw r0, [r0+505]; mov64 r0, 0; exit": "refused 52 at 3",
    "mov64 r1, 0; call 1; jne r0, 0, +2; mov64 r0, 0; exit; ldxb r0, [r0+0]; exit": "accepted budget 5",
    # the edges the other way round
    "mov64 r1, 0; call 1; jeq r0, 0, +2; mov64 r0, 0; exit; ldxb r0, [r0+0]; exit": "refused 52 at 5",
    "mov64 r1, 0; call 1; jne r0, 0, +1; ldxb r0, [r0+0]; mov64 r0, 0; exit": "refused 52 at 3",
    # where it is null it is the number 0
    "mov64 r1, 0; call 1; jne r0, 0, +1; exit; mov64 r0, 0; exit": "accepted budget 5",
    # a copy isn't tested with it
    "mov64 r1, 0; call 1; mov64 r6, r0; jeq r0, 0, +1; ldxb r0, [r6+0]; mov64 r0, 0; exit": "refused 52 at 4",
    "mov64 r1, 0; call 1; mov64 r6, r0; jeq r6, 0, +1; ldxb r0, [r6+0]; mov64 r0, 0; exit": "accepted budget 7",
    # nor is a spilled one
    (
        "mov64 r1, 0; call 1; stxdw [r10-8], r0; jeq r0, 0, +2; ldxdw r6, [r10-8]; ldxb r0, [r6+0]; mov64 r0, 0; exit"
    ): "refused 52 at 5",
    # moved after the test
    "mov64 r1, 0; call 1; jeq r0, 0, +2; add64 r0, 511; ldxb r0, [r0+0]; mov64 r0, 0; exit": "accepted budget 7",
    "mov64 r1, 0; call 1; jeq r0, 0, +2; add64 r0, 512; ldxb r0, [r0-1]; mov64 r0, 0; exit": "accepted budget 7",
    "mov64 r1, 0; call 1; jeq r0, 0, +2; add64 r0, 65535; mov64 r0, 0; mov64 r0, 0; exit": "accepted budget 7",
    "mov64 r1, 0; call 1; jeq r0, 0, +2; add64 r0, 65536; mov64 r0, 0; mov64 r0, 0; exit": "refused 54 at 3",
    "mov64 r1, 0; call 1; jeq r0, 0, +2; sub64 r0, 1; mov64 r0, 0; mov64 r0, 0; exit": "refused 54 at 3",
}

# Arithmetic on ranges: r6 is made of a byte, 0..255, and then moves the pointer to a sector.
INDEX = "ldxb r6, [r1+8]; mov64 r1, 0; call 1; jeq r0, 0, +{skipped}; {made}; add64 r0, r6; ldxb r0, [r0+0]; mov64 r0, 0; exit"

RANGES = {
    "mov64 r7, 0": "accepted budget 9",
    "add64 r6, 256": "accepted budget 9",
    "add64 r6, 257": "refused 52 at 6",
    # a sum that passes 2^64 on one side only
    "add64 r6, -1": "refused 54 at 5",
    "sub64 r6, 1": "refused 54 at 5",
    "and64 r6, 7": "accepted budget 9",
    "or64 r6, 256": "accepted budget 9",
    "or64 r6, 512": "refused 52 at 6",
    "xor64 r6, 511": "accepted budget 9",
    "lsh64 r6, 1": "accepted budget 9",
    "lsh64 r6, 65": "accepted budget 9",
    "lsh64 r6, 2": "refused 52 at 6",
    "rsh64 r6, 3": "accepted budget 9",
    "arsh64 r6, 3": "accepted budget 9",
    "mul64 r6, 2": "accepted budget 9",
    "mul64 r6, 3": "refused 52 at 6",
    "div64 r6, 2": "accepted budget 9",
    "mod64 r6, 100": "accepted budget 9",
    "neg64 r6": "refused 54 at 5",
    "movsx8to64 r6, r6": "refused 54 at 5",
    "movsx16to64 r6, r6": "accepted budget 9",
    "le16 r6": "accepted budget 9",
    "be16 r6": "refused 52 at 6",
    "be32 r6": "refused 54 at 5",
    "mov32 r6, r6": "accepted budget 9",
    "mov64 r6, 511": "accepted budget 9",
    "mov64 r6, 512": "refused 52 at 6",
    "ldxdw r6, [r10-8]": "refused 51 at 4",
}

RANGED = {INDEX.format(skipped=3, made=made): answer for made, answer in RANGES.items()}

# An index that helper 6 answers, which may be any number, is tested signed at both ends.
SIGNED_INDEX = (
    "mov64 r1, 0; call 1; jne r0, 0, +2; mov64 r0, 0; exit; mov64 r6, r0; mov64 r1, 0; call 6; {low}, +3; "
    "{high}, +2; add64 r6, r0; ldxdw r1, [r6+0]; mov64 r0, 0; exit"
)

SIGNED = {
    SIGNED_INDEX.format(low="jslt r0, 0", high="jsgt r0, 504"): "accepted budget 12",
    SIGNED_INDEX.format(low="jslt r0, 0", high="jsgt r0, 505"): "refused 52 at 11",
    SIGNED_INDEX.format(low="jsle r0, -1", high="jsge r0, 505"): "accepted budget 12",
    # from -1 on an index has numbers of both signs
    SIGNED_INDEX.format(low="jslt r0, -1", high="jsgt r0, 504"): "refused 54 at 10",
    SIGNED_INDEX.format(low="jslt32 r0, 0", high="jsgt r0, 504"): "refused 54 at 10",
    SIGNED_INDEX.format(low="jslt r0, 0", high="jsgt32 r0, 504"): "refused 54 at 10",
    SIGNED_INDEX.format(low="jslt r0, r0", high="jsgt r0, 504"): "refused 54 at 10",
    # one test at each end, of which one is unsigned
    SIGNED_INDEX.format(low="jslt r0, 0", high="jgt r0, 504"): "accepted budget 12",
    # a difference keeps its signed ends, and so does a copy
    (
        "mov64 r1, 0; call 1; jne r0, 0, +2; mov64 r0, 0; exit; mov64 r6, r0; mov64 r1, 0; call 6; jslt r0, 8, +5; "
        "jsgt r0, 512, +4; mov64 r2, r0; sub64 r2, 8; add64 r6, r2; ldxdw r1, [r6+0]; mov64 r0, 0; exit"
    ): "accepted budget 14",
    # r6 is 0..65536 less 7, which has numbers of both signs; the tests cut it to 0..504
    (
        "ldxdw r6, [r1+8]; sub64 r6, 7; mov64 r1, 0; call 1; jeq r0, 0, +4; jslt r6, 0, +3; jsgt r6, 504, +2; "
        "add64 r0, r6; ldxdw r0, [r0+0]; mov64 r0, 0; exit"
    ): "accepted budget 11",
    # a sum that may leave the signed numbers has none of its ends: 2^63 - 1 and 1 give -2^63
    (
        "lddw r6, 9223372036854775807; ldxdw r7, [r1+8]; add64 r7, 1; mov64 r1, 0; call 1; jeq r0, 0, +4; add64 r6, r7; "
        "jslt r6, 0, +2; add64 r0, r6; ldxb r0, [r0+0]; mov64 r0, 0; exit"
    ): "accepted budget 12",
    # no number is left after an edge, and so no rule is broken there
    "ldxdw r6, [r1+8]; jsge r6, 0, +1; ldxb r0, [r6+0]; mov64 r0, 0; exit": "accepted budget 5",
}

SPILLED_ON_TWO_PATHS = (
    "stdw [r10-8], 8; ldxdw r2, [r1+8]; jeq r2, 0, +1; stdw [r10-8], 16; ldxdw r6, [r10-8]; mov64 r1, 0; call 1; "
    "jeq r0, 0, +2; add64 r0, r6; ldxb r0, [r0+{distance}]; mov64 r0, 0; exit"
)

SPILLS = {
    "stdw [r10-8], 8; ldxdw r2, [r10-8]; mov64 r3, r10; sub64 r3, r2; ldxdw r0, [r3+0]; exit": "accepted budget 6",
    "mov64 r4, 8; stxdw [r10-8], r4; ldxdw r2, [r10-8]; mov64 r3, r10; sub64 r3, r2; ldxdw r0, [r3+0]; exit": (
        "accepted budget 7"
    ),
    # a byte of it was overwritten
    "stdw [r10-8], 8; stb [r10-8], 8; ldxdw r2, [r10-8]; mov64 r3, r10; sub64 r3, r2; ldxdw r0, [r3+0]; exit": (
        "refused 54 at 4"
    ),
    "stdw [r10-8], 8; stb [r10-1], 0; ldxdw r2, [r10-8]; mov64 r3, r10; sub64 r3, r2; ldxdw r0, [r3+0]; exit": (
        "refused 54 at 4"
    ),
    # one beside it
    "stdw [r10-8], 8; stb [r10-9], 0; ldxdw r2, [r10-8]; mov64 r3, r10; sub64 r3, r2; ldxdw r0, [r3+0]; exit": (
        "accepted budget 7"
    ),
    # neither narrower nor unaligned stores and loads keep a number
    "stw [r10-8], 8; stw [r10-4], 0; ldxdw r2, [r10-8]; mov64 r3, r10; sub64 r3, r2; ldxdw r0, [r3+0]; exit": (
        "refused 54 at 4"
    ),
    "stdw [r10-16], 8; stdw [r10-12], 8; ldxdw r2, [r10-12]; mov64 r3, r10; sub64 r3, r2; mov64 r0, 0; exit": (
        "refused 54 at 4"
    ),
    "stdw [r10-8], 8; ldxw r2, [r10-8]; mov64 r3, r10; sub64 r3, r2; ldxdw r0, [r3+0]; exit": "refused 54 at 3",
    # its bytes are written
    "stdw [r10-8], 8; ldxb r0, [r10-1]; exit": "accepted budget 3",
    # on two paths: two numbers give a range, a number and a pointer unset bytes
    SPILLED_ON_TWO_PATHS.format(distance=495): "accepted budget 12",
    SPILLED_ON_TWO_PATHS.format(distance=496): "refused 52 at 9",
    "stdw [r10-8], 8; ldxdw r2, [r1+8]; jeq r2, 0, +1; stxdw [r10-8], r1; ldxdw r0, [r10-8]; exit": "refused 51 at 4",
    # helper 2 writes bytes
    (
        "stdw [r10-8], 8; mov64 r2, r10; add64 r2, -8; mov64 r1, 0; mov64 r3, 1; call 2; ldxdw r2, [r10-8]; "
        "mov64 r3, r10; sub64 r3, r2; mov64 r0, 0; exit"
    ): "refused 54 at 8",
}

TABLES = [
    SIGNED,
    SPILLS,
    TARGETS,
    NEXT_SLOTS,
    FRAME_POINTER,
    HELPERS,
    AGAIN,
    LOOPS,
    BUDGETS,
    LOCAL_CALLS,
    UNSET,
    BYTES,
    PLACES,
    WRITES,
    POINTERS,
    NUMBERS,
    ARGUMENTS,
    COPIES,
    BRANCHES,
    NULL_TESTS,
    RANGED,
]

# The number of sectors is a constant to the verifier.
SECTORS_AS_INDEX = (
    "ldxdw r6, [r1+0]; mov64 r1, 0; call 1; jeq r0, 0, +2; add64 r0, r6; ldxb r0, [r0+0]; mov64 r0, 0; exit"
)

SIZES = [
    verified("verify: the number of sectors as index, 4", SECTORS_AS_INDEX, "accepted budget 8", 4),
    verified("verify: the number of sectors as index, 511", SECTORS_AS_INDEX, "accepted budget 8", 511),
    verified("verify: the number of sectors as index, 512", SECTORS_AS_INDEX, "refused 52 at 5", 512),
    verified("verify: the number of sectors as index, 16,384", SECTORS_AS_INDEX, "refused 52 at 5", 16384),
]

# A loop whose index is raised without a test is rounded up to all numbers, and then no index any more.
UNTESTED = (
    "mov64 r1, 0; call 1; jeq r0, 0, +9; mov64 r7, r0; mov64 r6, 0; mov64 r1, 9; call 3; jeq r0, 0, +4; "
    "mov64 r3, r7; add64 r3, r6; add64 r6, 1; ja -7; mov64 r0, 0; exit"
)
TESTED = UNTESTED.replace("jeq r0, 0, +9", "jeq r0, 0, +10").replace("jeq r0, 0, +4; ", "jeq r0, 0, +5; jge r6, 9, +4; ")
TESTED = TESTED.replace("ja -7", "ja -8")

IN_LOOPS = [
    verified("verify: an index without a test in a loop", UNTESTED, "refused 54 at 9"),
    # at most 9 turns, and a longest path of ten slots, with or without what stands before the loop
    verified("verify: an index with a test in a loop", TESTED, "accepted budget 100"),
]

ROWS = [
    *(verified(f"verify: {text}", text, answer) for table in TABLES for text, answer in table.items()),
    *SIZES,
    *IN_LOOPS,
]
