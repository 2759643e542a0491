; Checks a device of two commit slots, as its recovery reads it.
;
; Sectors 0 and 1 are the slots, sector 2 + s is the payload of slot s. A slot
; holds the number of its commit (byte 0), the mix of its payload (byte 8), and
; a last word with which the mix of the whole slot is 1. Recovery takes the
; valid slot with the greatest number.
;
; Answers 0 where the device is good, 1 where the payload of the chosen slot is
; not the one that it vouches for (and reports the number of the commit), 2
; where a commit that was acknowledged by a mark is lost, 3 where the device is
; too small.

        ldxdw r9, [r1+16]       ; how many commits were acknowledged
        mov64 r6, 0             ; the greatest number so far, 0: none
        mov64 r7, 0             ; the slot that has it
        mov64 r8, 0             ; the slot to look at

next_slot:
        mov64 r1, 2             ; at most two turns
        call 3                  ; again
        jeq r0, 0, chosen
        mov64 r1, r8
        call 6                  ; mix of the slot
        jne r0, 1, looked_at    ; torn, or never written
        mov64 r1, r8
        call 1                  ; sector
        jeq r0, 0, too_small
        ldxdw r1, [r0+0]        ; its number
        jle r1, r6, looked_at
        mov64 r6, r1
        mov64 r7, r8
looked_at:
        add64 r8, 1
        ja next_slot

chosen:
        jlt r6, r9, lost
        jeq r6, 0, good         ; as before the first commit
        mov64 r1, r7
        call 1                  ; sector
        jeq r0, 0, too_small
        ldxdw r8, [r0+8]        ; the mix that the payload has to have
        mov64 r1, r7
        add64 r1, 2
        call 6                  ; mix of the payload
        jeq r0, r8, good

        mov64 r1, r6
        call 4                  ; report the number of the commit
        mov64 r0, 1
        exit
lost:
        mov64 r0, 2
        exit
too_small:
        mov64 r0, 3
        exit
good:
        mov64 r0, 0
        exit
