; Checks pages with a double-write buffer, as their recovery reads them.
;
; Page p, from 0 to 3, is in the sectors 2p and 2p + 1. The copy of an even page is
; in the sectors 8 and 9, that of an odd one in 10 and 11. A page begins with its
; version (byte 0) and its number (byte 8), and its last word makes the sum of the
; mixes of its two sectors 1; a page that was never written is zeros. Commits with
; an odd number write the pages 0 and 1, the others the pages 2 and 3.
;
; Recovery takes a page from its place where it is whole, else its copy.
;
; Answers 0 where the pages are good, 1 where a page is whole in neither place, 2
; where a version that was acknowledged by a mark is lost (and both report the page),
; 3 where the device is too small.

        ldxdw r9, [r1+16]       ; how many commits were acknowledged
        ldxdw r1, [r1+0]        ; sectors of the device
        jlt r1, 12, too_small
        mov64 r6, 0             ; the page to look at

next_page:
        mov64 r1, 5             ; four pages, and the end
        call 3                  ; again
        jeq r0, 0, too_small
        jge r6, 4, good         ; all were looked at
        mov64 r8, r6
        rsh64 r8, 1
        mov64 r7, r9
        add64 r7, 1
        sub64 r7, r8
        rsh64 r7, 1             ; the version that was acknowledged
        mov64 r1, r6
        callf recovered
        jeq r0, -1, broken
        jlt r0, r7, lost
        add64 r6, 1
        ja next_page

broken:
        mov64 r1, r6
        call 4                  ; report the page
        mov64 r0, 1
        exit
lost:
        mov64 r1, r6
        call 4                  ; report the page
        mov64 r0, 2
        exit
too_small:
        mov64 r0, 3
        exit
good:
        mov64 r0, 0
        exit

; The version of page r1 that recovery takes, -1 where there is none.
recovered:
        mov64 r6, r1
        mov64 r7, r1
        lsh64 r7, 1             ; where the page is
        mov64 r2, r1
        mov64 r1, r7
        callf version_at
        jne r0, 0, taken
        mov64 r1, r7
        call 5                  ; zero
        mov64 r8, r0
        add64 r7, 1
        mov64 r1, r7
        call 5                  ; zero
        and64 r8, r0
        mov64 r0, 0
        jeq r8, 1, taken        ; the page was never written
        mov64 r1, r6
        and64 r1, 1
        lsh64 r1, 1
        add64 r1, 8             ; where its copy is
        mov64 r2, r6
        callf version_at
        jne r0, 0, taken
        mov64 r0, -1
taken:
        exit

; The version of page r2, where it is whole in the sectors from r1 on, else 0.
version_at:
        mov64 r6, r1
        mov64 r7, r2
        call 6                  ; mix
        mov64 r8, r0
        mov64 r1, r6
        add64 r1, 1
        call 6                  ; mix
        add64 r8, r0
        jne r8, 1, none         ; torn, or never written
        mov64 r1, r6
        call 1                  ; sector
        jeq r0, 0, none
        ldxdw r1, [r0+8]        ; its number
        jne r1, r7, none
        ldxdw r0, [r0+0]        ; its version
        exit
none:
        mov64 r0, 0
        exit
