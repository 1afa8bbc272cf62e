; led.a51: the lamp, and the tick of timer 0 that makes it blink.
;
; LEDBLINK changes PERIOD and LEFT while the interrupt of timer 0 is off: with the new PERIOD and the old LEFT of 0 the
; lamp would first change after 256 ticks.
$INCLUDE(board.inc)
        NAME  LAMP
        PUBLIC LEDINIT, LEDON, LEDOFF, LEDBLINK, TICKISR, TICKS, PERIOD

?DA?LED      SEGMENT DATA     ; keeps its values between calls, so it is not overlayable
?PR?LEDINIT  SEGMENT CODE
?PR?LEDON    SEGMENT CODE
?PR?LEDOFF   SEGMENT CODE
?PR?LEDBLINK SEGMENT CODE
?PR?TICKISR  SEGMENT CODE
?DT?TICKISR  SEGMENT DATA OVERLAYABLE

        RSEG  ?DA?LED
TICKS:  DS    2               ; ticks since the start, the high byte first
PERIOD: DS    1               ; ticks from one change of the lamp to the next; 0: it does not blink
LEFT:   DS    1               ; ticks to the next change

; LEDINIT: starts the ticks, with the lamp off. It keeps all registers.
        RSEG  ?PR?LEDINIT
LEDINIT:
        MOV   TICKS,#0
        MOV   TICKS+1,#0
        MOV   PERIOD,#0
        ORL   TMOD,#T0WIDE
        MOV   TH0,#HIGH(TICK)
        MOV   TL0,#LOW(TICK)
        SETB  ET0
        SETB  TR0
        SETB  LED
        RET

; LEDON, LEDOFF: the lamp is on or off, and does not blink.
        RSEG  ?PR?LEDON
LEDON:  MOV   PERIOD,#0
        CLR   LED
        RET

        RSEG  ?PR?LEDOFF
LEDOFF: MOV   PERIOD,#0
        SETB  LED
        RET

; LEDBLINK: the lamp changes every R7 ticks; with 0 it stays as it is.
        RSEG  ?PR?LEDBLINK
LEDBLINK:
        CLR   ET0
        MOV   PERIOD,R7
        MOV   LEFT,R7
        SETB  ET0
        RET

; TICKISR: the interrupt of timer 0. It uses no register of a bank; what it saves are locals, which share bytes with no
; other root.
        RSEG  ?DT?TICKISR
SAVEA:  DS    1
SAVEP:  DS    1
        RSEG  ?PR?TICKISR
TICKISR:
        MOV   SAVEA,A
        MOV   SAVEP,PSW
        MOV   TH0,#HIGH(TICK)
        MOV   TL0,#LOW(TICK)
        INC   TICKS+1
        MOV   A,TICKS+1
        JNZ   SAME
        INC   TICKS
SAME:   MOV   A,PERIOD
        JZ    DONE
        DJNZ  LEFT,DONE
        MOV   LEFT,PERIOD
        CPL   LED
DONE:   MOV   PSW,SAVEP
        MOV   A,SAVEA
        RETI
        END
