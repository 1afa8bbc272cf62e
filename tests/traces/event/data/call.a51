        CSEG AT 0
        MOV  P1,#3
        POP  ACC
        END
