; SCALE: A becomes three times A.
        NAME  SCALE
        PUBLIC SCALE
?PR?SCALE SEGMENT CODE
?DT?SCALE SEGMENT DATA OVERLAYABLE
        RSEG  ?DT?SCALE
ONCE:   DS    1
        RSEG  ?PR?SCALE
SCALE:  MOV   ONCE,A
        RL    A
        ADD   A,ONCE
        RET
        END
