; Checks an append-only journal, as its recovery reads it.
;
; Sector 0 is the header; its first word is the number of records. Record i, from
; 1 on, is sector i; it begins with the word i, and its last word makes the mix
; of the sector 1.
;
; Answers 0 where the journal is good, 1 where a record that the header counts is
; missing or torn (and reports the number of the record), 2 where a record that
; was acknowledged by a mark is not counted, 3 where the header counts more
; records than there are sectors for.

        ldxdw r8, [r1+0]        ; sectors of the device
        ldxdw r9, [r1+16]       ; how many records were acknowledged
        mov64 r1, 0
        call 1                  ; sector
        jeq r0, 0, no_room
        ldxdw r6, [r0+0]        ; the number of records
        jlt r6, r9, lost
        jge r6, r8, no_room
        mov64 r7, 1             ; the record to look at

next_record:
        mov64 r1, 8             ; at most seven records, and the end
        call 3                  ; again
        jeq r0, 0, no_room
        jgt r7, r6, good        ; all were looked at
        mov64 r1, r7
        call 6                  ; mix of the record
        jne r0, 1, broken       ; torn, or never written
        mov64 r1, r7
        call 1                  ; sector
        jeq r0, 0, no_room
        ldxdw r1, [r0+0]        ; its number
        jne r1, r7, broken
        add64 r7, 1
        ja next_record

broken:
        mov64 r1, r7
        call 4                  ; report the number of the record
        mov64 r0, 1
        exit
lost:
        mov64 r0, 2
        exit
no_room:
        mov64 r0, 3
        exit
good:
        mov64 r0, 0
        exit
