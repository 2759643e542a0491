; A loop inside a loop, counted over the whole run; answers 0 at its 29th step.
    mov64 r1, 2
    call 3
    jeq r0, 0, +4
    mov64 r1, 3
    call 3
    jeq r0, 0, -6
    ja -4
    mov64 r0, 0
    exit
