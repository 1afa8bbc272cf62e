; overlay.a51: MAIN calls READ and then PUT, PUT calls CONV with arguments, and TICK is an interrupt in register bank 1.
; docs/LINKER.md shows where the linker puts each segment, and why.
COUNT    SEGMENT DATA
FLAGS    SEGMENT DATA BITADDRESSABLE
?STACK   SEGMENT IDATA
?PR?MAIN SEGMENT CODE
?PR?READ SEGMENT CODE
?DT?READ SEGMENT DATA OVERLAYABLE
?PR?PUT  SEGMENT CODE
?DT?PUT  SEGMENT DATA OVERLAYABLE
?PR?CONV SEGMENT CODE
?DT?CONV SEGMENT DATA OVERLAYABLE
?AG?CONV SEGMENT DATA OVERLAYABLE
?BI?CONV SEGMENT BIT OVERLAYABLE
?PR?TICK SEGMENT CODE
?DT?TICK SEGMENT DATA OVERLAYABLE

        RSEG  COUNT
N:      DS    2
        RSEG  FLAGS
F:      DS    1
        RSEG  ?STACK
        DS    20
        RSEG  ?DT?READ
LINE:   DS    12
        RSEG  ?DT?PUT
OUT:    DS    3
        RSEG  ?DT?CONV
SUM:    DS    4
        RSEG  ?AG?CONV
ARG:    DS    2
        RSEG  ?BI?CONV
NEG:    DBIT  3
        RSEG  ?DT?TICK
SAVED:  DS    5

        CSEG  AT 0
        LJMP  MAIN
        CSEG  AT 0BH
        LJMP  TICK

        RSEG  ?PR?MAIN
MAIN:   MOV   SP,#?STACK-1
LOOP:   LCALL READ
        LCALL PUT
        SJMP  LOOP

        RSEG  ?PR?READ
READ:   MOV   LINE,#1
        RET

        RSEG  ?PR?PUT
PUT:    MOV   OUT,#2
        MOV   ARG,#3          ; the caller fills the arguments
        LCALL CONV
        RET

        RSEG  ?PR?CONV
CONV:   MOV   SUM,ARG
        SETB  NEG
        RET

        USING 1
        RSEG  ?PR?TICK
TICK:   MOV   SAVED,A
        MOV   A,SAVED
        RETI
        END
