; Reports the codes 0, 1, 2, .. in 17 turns, of which the machine keeps 16, and answers 1.
    mov64 r6, 0
    mov64 r1, 17        ; at most 17 turns
    call 3
    jeq r0, 0, +4
    mov64 r1, r6
    call 4              ; report
    add64 r6, 1
    ja -7
    mov64 r0, 1
    exit
