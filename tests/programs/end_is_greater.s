; Answers 1 where the last byte of sector 0 is greater than the first, else 0.
    mov64 r1, 0
    call 1              ; the address of sector 0
    jne r0, 0, +2
    mov64 r0, 0
    exit
    ldxb r1, [r0+0]
    ldxb r2, [r0+511]
    mov64 r0, 0
    jge r1, r2, +1
    mov64 r0, 1
    exit
