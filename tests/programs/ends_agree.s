; Answers 0 where the first and the last byte of sector 0 are equal, else 1.
    mov64 r1, 0
    call 1              ; the address of sector 0
    jne r0, 0, +2
    mov64 r0, 0
    exit
    ldxb r1, [r0+0]
    ldxb r2, [r0+511]
    mov64 r0, 0
    jeq r1, r2, +1
    mov64 r0, 1
    exit
