; Answers 1 where of the sectors 13, 14 and 15 all but the end is there: byte 447 isn't zero and byte 511 is.
    mov64 r1, 13
    call 1
    jeq r0, 0, good
    ldxb r2, [r0+447]
    jeq r2, 0, good
    ldxb r2, [r0+511]
    jne r2, 0, good
    mov64 r1, 14
    call 1
    jeq r0, 0, good
    ldxb r2, [r0+447]
    jeq r2, 0, good
    ldxb r2, [r0+511]
    jne r2, 0, good
    mov64 r1, 15
    call 1
    jeq r0, 0, good
    ldxb r2, [r0+447]
    jeq r2, 0, good
    ldxb r2, [r0+511]
    jne r2, 0, good
    mov64 r0, 1
    exit
good:
    mov64 r0, 0
    exit
