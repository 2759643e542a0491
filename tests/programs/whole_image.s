; Answers a number that is made of the mixes of all sectors, up to 64 of them: 0 for a device of zeros.
    ldxdw r8, [r1+0]    ; how many sectors there are
    mov64 r6, 0         ; the answer so far
    mov64 r7, 0         ; the next sector
next:
    mov64 r1, 64        ; at most 64 turns
    call 3
    jeq r0, 0, done
    jge r7, r8, done
    mov64 r1, r7
    call 6              ; mix
    mul64 r6, 31
    add64 r6, r0
    add64 r7, 1
    ja next
done:
    mov64 r0, r6
    exit
