; Answers byte 64 of sector 0.
    mov64 r1, 0
    call 1              ; the address of sector 0
    jne r0, 0, +2
    mov64 r0, 0
    exit
    ldxb r0, [r0+64]
    exit
