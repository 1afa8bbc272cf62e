; ring.a51: a ring of records in external memory. It lies in one page, so R0 is enough to walk it; P2 selects the page.
; Only the main program calls these routines.
$INCLUDE(log.inc)
        NAME  RING
        PUBLIC LOGINIT, LOGPUT, LOGGET, LOGCOUNT

BUFFER      SEGMENT XDATA INPAGE
RINGV       SEGMENT DATA
?PR?LOGINIT SEGMENT CODE
?PR?LOGPUT  SEGMENT CODE
?PR?LOGGET  SEGMENT CODE
?PR?NEXT    SEGMENT CODE

        RSEG  BUFFER
RECS:   DS    RECLEN*NREC     ; the records, oldest at RD
        RSEG  RINGV
WR:     DS    1               ; offset of the next record to write
RD:     DS    1               ; that of the oldest
LOGCOUNT:
        DS    1               ; records in the ring

; LOGINIT: an empty ring. It changes A.
        RSEG  ?PR?LOGINIT
LOGINIT:
        CLR   A
        MOV   WR,A
        MOV   RD,A
        MOV   LOGCOUNT,A
        RET

; NEXT: makes the offset of a record in A that of the one after it.
        RSEG  ?PR?NEXT
NEXT:   ADD   A,#RECLEN
        CJNE  A,#RECLEN*NREC,INSIDE
        CLR   A
INSIDE: RET

; LOGPUT: keeps the record in R4 to R7. A full ring loses its oldest one. It changes A, R0 and P2.
        RSEG  ?PR?LOGPUT
LOGPUT: MOV   P2,#HIGH(RECS)
        MOV   A,#LOW(RECS)
        ADD   A,WR
        MOV   R0,A
        MOV   A,R4
        MOVX  @R0,A
        INC   R0
        MOV   A,R5
        MOVX  @R0,A
        INC   R0
        MOV   A,R6
        MOVX  @R0,A
        INC   R0
        MOV   A,R7
        MOVX  @R0,A
        MOV   A,WR
        CALL  NEXT
        MOV   WR,A
        MOV   A,LOGCOUNT
        CJNE  A,#NREC,MORE
        MOV   A,RD
        CALL  NEXT
        MOV   RD,A
        RET
MORE:   INC   LOGCOUNT
        RET

; LOGGET: takes the oldest record into R4 to R7, with C 1; C is 0 if the ring is empty. It changes A, R0 and P2.
        RSEG  ?PR?LOGGET
LOGGET: MOV   A,LOGCOUNT
        CLR   C
        JZ    EMPTY
        DEC   LOGCOUNT
        MOV   P2,#HIGH(RECS)
        MOV   A,#LOW(RECS)
        ADD   A,RD
        MOV   R0,A
        MOVX  A,@R0
        MOV   R4,A
        INC   R0
        MOVX  A,@R0
        MOV   R5,A
        INC   R0
        MOVX  A,@R0
        MOV   R6,A
        INC   R0
        MOVX  A,@R0
        MOV   R7,A
        MOV   A,RD
        CALL  NEXT
        MOV   RD,A
        SETB  C
EMPTY:  RET
        END
