; A loop whose index is a byte of the sector itself, cut to 0..7: a verifier that widens it at the head of the loop to
; all numbers refuses this program.
    mov64 r1, 0
    call 1              ; the address of sector 0
    jne r0, 0, +2
    mov64 r0, 0
    exit
    mov64 r7, r0
    mov64 r6, 0
    mov64 r1, 3         ; at most three turns
    call 3
    jeq r0, 0, +5
    mov64 r3, r7
    add64 r3, r6
    ldxb r6, [r3+0]
    and64 r6, 7
    ja -8
    mov64 r0, 0
    exit
