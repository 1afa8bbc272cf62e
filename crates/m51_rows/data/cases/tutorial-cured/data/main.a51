; MAIN: shows three times TICKS on port 1.
        NAME  MAIN
        PUBLIC TICKS
        EXTRN CODE (SCALE, TICK)
?STACK   SEGMENT IDATA
STATE    SEGMENT DATA
?PR?MAIN SEGMENT CODE
?PR?SHOW SEGMENT CODE
?DT?SHOW SEGMENT DATA OVERLAYABLE

        RSEG  ?STACK
        DS    16

        RSEG  STATE
TICKS:  DS    1

        RSEG  ?DT?SHOW
LAST:   DS    1

        CSEG  AT 0
        LJMP  MAIN

        CSEG  AT 0BH
        LJMP  TICK

        RSEG  ?PR?MAIN
MAIN:   MOV   SP,#?STACK-1
        MOV   TMOD,#2         ; timer 0: 8 bits, with reload
        MOV   TH0,#156        ; a tick every 100 machine cycles
        MOV   TL0,#156
        MOV   IE,#82H         ; its interrupt is enabled
        SETB  TR0
LOOP:   MOV   A,TICKS
        LCALL SCALE
        LCALL SHOW
        SJMP  LOOP

        RSEG  ?PR?SHOW
SHOW:   CJNE  A,LAST,NEW      ; a new value is shown, an old one is not
        RET
NEW:    MOV   LAST,A
        MOV   P1,A
        RET
        END
