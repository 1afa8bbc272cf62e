; called.a51: shows at port 1 what it is called by.
        CSEG  AT 0
        MOV   SCON,#0B0H      ; mode 2, SM2 and REN are 1
WAIT:   JNB   RI,WAIT
        MOV   P1,SBUF
        SJMP  $
        END
