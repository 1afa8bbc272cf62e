; show.a51: the display. SHOW lights one digit after another under the interrupt of timer 0; the main program changes
; the values.
$INCLUDE(board.inc)
        NAME  SHOWING
        PUBLIC SHOWINIT, SHOW, SHIFTIN, CLEARALL

SHOWN        SEGMENT IDATA
VARS         SEGMENT DATA               ; a part of the same segment as in main.a51
?CO?SHAPES   SEGMENT CODE INPAGE
?PR?SHOWINIT SEGMENT CODE
?PR?SHOW     SEGMENT CODE
?DT?SHOW     SEGMENT DATA OVERLAYABLE
?PR?SHIFTIN  SEGMENT CODE
?PR?CLEARALL SEGMENT CODE

        RSEG  SHOWN
VALUES: DS    DIGITS          ; the leftmost first: 0 to 15, or DARK
        RSEG  VARS
WHICH:  DS    1               ; the digit that is next, 0 to DIGITS-1

; The segments of 0 to F and of nothing; a segment lights at 0.
        RSEG  ?CO?SHAPES
SHAPES: DB    0C0H,0F9H,0A4H,0B0H,99H,92H,82H,0F8H,80H,90H,88H,83H,0C6H,0A1H,86H,8EH,0FFH

; SHOWINIT: starts with a dark display. It changes R0 and R2.
        RSEG  ?PR?SHOWINIT
SHOWINIT:
        MOV   WHICH,#0
        MOV   P2,#ALLOFF
        LJMP  CLEARALL

; CLEARALL: all digits are dark. It changes R0 and R2.
        RSEG  ?PR?CLEARALL
CLEARALL:
        MOV   R0,#VALUES
        MOV   R2,#DIGITS
EACH:   MOV   @R0,#DARK
        INC   R0
        DJNZ  R2,EACH
        RET

; SHIFTIN: the digit A comes in at the right, and the leftmost one leaves. It changes A, R0 and R2.
        RSEG  ?PR?SHIFTIN
SHIFTIN:
        MOV   R0,#VALUES+DIGITS-1
        MOV   R2,#DIGITS
SHIFT:  XCH   A,@R0
        DEC   R0
        DJNZ  R2,SHIFT
        RET

; SHOW: lights the next digit. It runs under the interrupt, in register bank 1; the main program may be using DPTR, so
; it is saved. It changes A and R0.
        RSEG  ?DT?SHOW
OUT:    DS    1               ; the segments of the digit
        RSEG  ?PR?SHOW
        USING 1
SHOW:   MOV   A,#VALUES
        ADD   A,WHICH
        MOV   R0,A
        MOV   A,@R0
        PUSH  DPH
        PUSH  DPL
        MOV   DPTR,#SHAPES
        MOVC  A,@A+DPTR
        POP   DPL
        POP   DPH
        MOV   OUT,A
        MOV   P2,#ALLOFF      ; dark while the segments change
        MOV   P0,OUT
        MOV   A,WHICH
        ADD   A,#MASKS-HERE
        MOVC  A,@A+PC
HERE:   MOV   P2,A
        INC   WHICH
        MOV   A,WHICH
        CJNE  A,#DIGITS,BACK
        MOV   WHICH,#0
BACK:   RET
MASKS:  DB    0FEH,0FDH,0FBH,0F7H     ; each digit on
        END
