; main.a51: takes keys, shows the digits 0 to B, clears at C, and reports each key on the serial port.
;
; The interrupt of timer 0 works in register bank 1, the main program in bank 0.
$INCLUDE(board.inc)
        NAME  KEYMAIN
        PUBLIC PRESSES
        EXTRN CODE (SHOWINIT, SHIFTIN, CLEARALL, SHOW)
        EXTRN CODE (KEYINIT, SCAN, TAKEKEY), BIT (NEWKEY)
        EXTRN CODE (SERINIT, REPORT)

?STACK    SEGMENT IDATA
VARS      SEGMENT DATA
?PR?MAIN  SEGMENT CODE
?DT?MAIN  SEGMENT DATA OVERLAYABLE
?PR?TIMER SEGMENT CODE
?DT?TIMER SEGMENT DATA OVERLAYABLE

        RSEG  ?STACK
        DS    12              ; what `m51 stack` says

        RSEG  VARS
PRESSES:
        DS    2               ; keys that were reported, the high byte first

        CSEG  AT 0
        LJMP  MAIN
        CSEG  AT 0BH          ; timer 0
        LJMP  TIMER

; MAIN: starts the devices, then waits for keys.
        RSEG  ?DT?MAIN
KEY:    DS    1               ; the key that is dealt with
        RSEG  ?PR?MAIN
MAIN:   MOV   SP,#?STACK-1
        MOV   PRESSES,#0
        MOV   PRESSES+1,#0
        LCALL SHOWINIT
        LCALL KEYINIT
        LCALL SERINIT
        ORL   TMOD,#T0WIDE
        MOV   TH0,#HIGH(SCANS)
        MOV   TL0,#LOW(SCANS)
        SETB  ET0
        SETB  TR0
        SETB  EA
WAIT:   JNB   NEWKEY,WAIT
        LCALL TAKEKEY
        MOV   KEY,A
        INC   PRESSES+1
        MOV   A,PRESSES+1
        JNZ   SAME
        INC   PRESSES
SAME:   MOV   A,KEY
        CJNE  A,#CLEAR,DIGIT
        LCALL CLEARALL
        SJMP  TELL
DIGIT:  JNC   TELL            ; D, E and F are reported only
        LCALL SHIFTIN
TELL:   MOV   A,KEY
        LCALL REPORT
        SJMP  WAIT

; TIMER: the interrupt of timer 0: the next digit, and the next row. Nothing else calls SHOW and SCAN.
        RSEG  ?DT?TIMER
SAVEA:  DS    1
SAVEP:  DS    1
        RSEG  ?PR?TIMER
        USING 1
TIMER:  MOV   SAVEA,A
        MOV   SAVEP,PSW
        MOV   PSW,#BANK1
        MOV   TH0,#HIGH(SCANS)
        MOV   TL0,#LOW(SCANS)
        LCALL SHOW
        LCALL SCAN
        MOV   PSW,SAVEP
        MOV   A,SAVEA
        RETI
        END
