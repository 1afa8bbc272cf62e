; HALVE: A becomes the half of A.
        NAME  HALVE
        PUBLIC HALVE
?PR?HALVE SEGMENT CODE
        RSEG  ?PR?HALVE
HALVE:  CLR   C
        RRC   A
        RET
        END
