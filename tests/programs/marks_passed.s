; Answers how many marks were passed.
    ldxdw r0, [r1+16]
    exit
