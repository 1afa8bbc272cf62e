        CSEG AT 0
        LJMP MAIN
        CSEG AT 0BH
        INC  P1
        RETI
        CSEG AT 30H
MAIN:   MOV  TMOD,#2
        MOV  TH0,#0F0H
        MOV  TL0,#0F0H
        MOV  IE,#82H
        SETB TR0
LOOP:   MOV  PCON,#1
        SJMP LOOP
        END
