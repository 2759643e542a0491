; Answers the epoch times 2^32 plus the number of marks passed.
    ldxdw r0, [r1+8]
    lsh64 r0, 32
    ldxdw r2, [r1+16]
    or64 r0, r2
    exit
