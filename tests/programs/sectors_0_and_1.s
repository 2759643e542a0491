; Reports whether sector 0 is all zeros, whether sectors 0 and 1 are the same, the last word of sector 0 and the first of
; sector 1, as codes; answers 1.
    mov64 r1, 0
    call 5              ; zero
    mov64 r1, r0
    call 4              ; report
    mov64 r1, 0
    mov64 r2, 1
    call 7              ; same
    mov64 r1, r0
    call 4
    mov64 r1, 504
    mov64 r2, r10
    add64 r2, -16
    mov64 r3, 16
    call 2              ; copy 16 bytes from byte 504 on
    ldxdw r1, [r10-16]
    call 4
    ldxdw r1, [r10-8]
    call 4
    mov64 r0, 1
    exit
