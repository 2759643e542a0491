; Checks a copy-on-write tree, as its recovery reads it.
;
; Sector 0 is the header: the number of the last commit (byte 0), and the sector of
; its root node (byte 8). A node is a sector; it begins with the number of the
; commit that wrote it, and its last word makes the mix of the sector 1. The root
; node has the sector and the commit of its left leaf (bytes 8 and 16) and of its
; right leaf (bytes 24 and 32).
;
; Answers 0 where the tree is good, 1 where a node of it is missing or torn, or is
; that of another commit (and reports its sector), 2 where a commit that was
; acknowledged by a mark is lost, 3 where the device is too small.

        ldxdw r9, [r1+16]       ; how many commits were acknowledged
        mov64 r1, 0
        call 1                  ; sector
        jeq r0, 0, too_small
        ldxdw r6, [r0+0]        ; the last commit
        ldxdw r7, [r0+8]        ; where its root node is
        jlt r6, r9, lost
        jeq r6, 0, good         ; as before the first commit

        mov64 r8, r7
        mov64 r1, r7
        mov64 r2, r6
        callf is_of
        jne r0, 1, broken
        mov64 r1, r7
        call 1                  ; sector
        jeq r0, 0, broken
        ldxdw r8, [r0+8]        ; the left leaf
        ldxdw r2, [r0+16]
        ldxdw r6, [r0+24]       ; the right leaf
        ldxdw r7, [r0+32]
        mov64 r1, r8
        callf is_of
        jne r0, 1, broken
        mov64 r8, r6
        mov64 r1, r6
        mov64 r2, r7
        callf is_of
        jne r0, 1, broken
good:
        mov64 r0, 0
        exit
broken:
        mov64 r1, r8
        call 4                  ; report the sector
        mov64 r0, 1
        exit
lost:
        mov64 r0, 2
        exit
too_small:
        mov64 r0, 3
        exit

; 1 where sector r1 has a whole node of commit r2, else another number.
is_of:
        mov64 r6, r1
        mov64 r7, r2
        call 6                  ; mix
        jne r0, 1, other        ; torn, or never written
        mov64 r1, r6
        call 1                  ; sector
        jeq r0, 0, other
        ldxdw r1, [r0+0]        ; the commit that wrote it
        jne r1, r7, other
        mov64 r0, 1
        exit
other:
        mov64 r0, 0
        exit
