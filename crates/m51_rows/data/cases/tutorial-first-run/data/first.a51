; The first program: writes 55H to port 1 and stays where it is.
        CSEG  AT 0
        MOV   P1,#55H
        SJMP  $
        END
