        CSEG AT 0
        MOV  A,#7
        MOV  P1,A
        SJMP $
        END
