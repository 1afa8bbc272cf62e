; past-end.a51: shows FFH and 01H at port 1, and forgets to stay where it is.
        CSEG  AT 0
        MOV   A,#0FFH
        MOV   P1,A
        MOV   P1,#01H
        END
