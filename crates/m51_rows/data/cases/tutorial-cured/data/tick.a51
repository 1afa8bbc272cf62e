; TICK: the interrupt of timer 0. TICKS counts from 0 to 15, and begins again.
        NAME  TICK
        PUBLIC TICK
        EXTRN DATA (TICKS)
?PR?TICK SEGMENT CODE
?DT?TICK SEGMENT DATA OVERLAYABLE

        RSEG  ?DT?TICK
SAVED:  DS    1

        RSEG  ?PR?TICK
TICK:   MOV   SAVED,A
        MOV   A,TICKS
        INC   A
        ANL   A,#0FH
        MOV   TICKS,A
        MOV   A,SAVED
        RETI
        END
