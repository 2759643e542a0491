; Takes the OR of the 64 words of sector 0 through an index that a loop raises, and answers 0.
    mov64 r6, 0
    mov64 r1, 0
    call 1              ; the address of sector 0
    jne r0, 0, +2
    mov64 r0, 0
    exit
    mov64 r7, r0
    mov64 r8, 0
    mov64 r1, 64        ; at most 64 turns
    call 3
    jeq r0, 0, +9
    jge r6, 64, +8      ; the bound of the index
    mov64 r2, r6
    lsh64 r2, 3
    mov64 r3, r7
    add64 r3, r2
    ldxdw r4, [r3+0]
    or64 r8, r4
    add64 r6, 1
    ja -12
    mov64 r0, 0
    exit
