; keys.a51: the keypad. SCAN looks at one row at each call. A key is reported once, after SAMEFOR rounds of four rows
; that all gave it, so that contacts may bounce; the next report needs another key, or the same one after it was
; released as long.
$INCLUDE(board.inc)
        NAME  KEYS
        PUBLIC KEYINIT, SCAN, TAKEKEY, NEWKEY

KEYV        SEGMENT DATA
KEYB        SEGMENT BIT
?PR?KEYINIT SEGMENT CODE
?PR?SCAN    SEGMENT CODE
?DT?SCAN    SEGMENT DATA OVERLAYABLE
?PR?TAKEKEY SEGMENT CODE

        RSEG  KEYV
ROW:    DS    1               ; the row that is next, 0 to 3
SEEN:   DS    1               ; the key of this round, or NOKEY
LAST:   DS    1               ; that of the round before
SAME:   DS    1               ; rounds for which it has been the same, modulo 256
HELD:   DS    1               ; the key that was reported last, or NOKEY after it was released
KEYVAL: DS    1               ; the key that TAKEKEY returns
        RSEG  KEYB
NEWKEY: DBIT  1               ; KEYVAL is a key that nobody has taken

; KEYINIT: no key is pressed. It keeps all registers.
        RSEG  ?PR?KEYINIT
KEYINIT:
        MOV   ROW,#0
        MOV   SEEN,#NOKEY
        MOV   LAST,#NOKEY
        MOV   SAME,#0
        MOV   HELD,#NOKEY
        CLR   NEWKEY
        RET

; SCAN: looks at the next row. It runs under the interrupt of timer 0, in register bank 1, and changes A and R3.
        RSEG  ?DT?SCAN
COLUMNS:
        DS    1               ; a 1 for each column that is low, shifted to the right
        RSEG  ?PR?SCAN
        USING 1
SCAN:   MOV   A,ROW
        ADD   A,#ROWS-HERE
        MOVC  A,@A+PC
HERE:   MOV   P1,A            ; this row is low
        NOP                   ; the columns settle
        MOV   A,P1
        CPL   A
        ANL   A,#0FH
        JZ    NEXT
        MOV   COLUMNS,A
        MOV   R3,#0           ; the first column that is low
FIND:   MOV   A,COLUMNS
        RRC   A
        MOV   COLUMNS,A
        JC    FOUND
        INC   R3
        SJMP  FIND
FOUND:  MOV   A,ROW
        RL    A
        RL    A
        ORL   A,R3
        MOV   SEEN,A
NEXT:   INC   ROW
        MOV   A,ROW
        CJNE  A,#KEYROWS,BACK
        MOV   ROW,#0          ; a round is done
        MOV   A,SEEN
        MOV   SEEN,#NOKEY
        CJNE  A,LAST,OTHER
        INC   SAME
        MOV   A,SAME
        CJNE  A,#SAMEFOR,BACK
        MOV   A,LAST
        CJNE  A,HELD,FRESH
        RET
FRESH:  MOV   HELD,A
        CJNE  A,#NOKEY,PRESS
        RET
PRESS:  MOV   KEYVAL,A
        SETB  NEWKEY
        RET
OTHER:  MOV   LAST,A
        MOV   SAME,#0
BACK:   RET
ROWS:   DB    0EFH,0DFH,0BFH,07FH     ; each row low, the columns high

; TAKEKEY: returns in A the key that NEWKEY announces, and takes NEWKEY back.
        RSEG  ?PR?TAKEKEY
TAKEKEY:
        CLR   NEWKEY
        MOV   A,KEYVAL
        RET
        END
