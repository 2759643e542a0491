; Checks pages of 4 KiB, as their recovery reads them.
;
; Sector 0 is the header; its first word is the number of the last commit. Commit
; i has its page in the eight sectors from 8 on where i is even, from 16 on where
; it is odd. A page begins with the number of its commit, and its last word makes
; the sum of the mixes of its sectors 1. Recovery takes the page of the commit
; that the header names, or where its sum is wrong that of the commit before.
;
; Answers 0 where the pages are good, 1 where the page that recovery takes is that
; of another commit (and reports the number of that one), 2 where a commit that
; was acknowledged by a mark is lost, 3 where the device is too small.

        ldxdw r9, [r1+16]       ; how many commits were acknowledged
        mov64 r1, 0
        call 1                  ; sector
        jeq r0, 0, no_room
        ldxdw r6, [r0+0]        ; the commit that the header names
        jlt r6, r9, lost
        jeq r6, 0, good         ; none was made
        mov64 r7, r6
        and64 r7, 1
        lsh64 r7, 3
        add64 r7, 8             ; where its page begins
        mov64 r1, r7
        callf page_sum
        jeq r0, 1, taken
        sub64 r6, 1             ; its page is broken: the commit before
        jlt r6, r9, lost
        jeq r6, 0, good
        mov64 r7, r6
        and64 r7, 1
        lsh64 r7, 3
        add64 r7, 8
        mov64 r1, r7
        callf page_sum
        jne r0, 1, lost

taken:
        mov64 r1, r7
        call 1                  ; sector
        jeq r0, 0, no_room
        ldxdw r1, [r0+0]        ; the commit of the page
        jeq r1, r6, good
        call 4                  ; report it
        mov64 r0, 1
        exit
lost:
        mov64 r0, 2
        exit
no_room:
        mov64 r0, 3
        exit
good:
        mov64 r0, 0
        exit

; The sum of the mixes of the eight sectors from r1 on.
page_sum:
        mov64 r6, r1
        add64 r6, 8             ; where the page ends
        mov64 r7, r1
        mov64 r8, 0
next_sector:
        mov64 r1, 18            ; eight sectors of two pages, and the end of each
        call 3                  ; again
        jeq r0, 0, summed
        jge r7, r6, summed
        mov64 r1, r7
        call 6                  ; mix
        add64 r8, r0
        add64 r7, 1
        ja next_sector
summed:
        mov64 r0, r8
        exit
