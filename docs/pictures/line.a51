; Copies the pins of port 1 to port 2 when they change, and answers each byte of the serial line with the next one.
        CSEG    AT 0
        MOV     TMOD,#20H       ; timer 1 gives the bits: 32 cycles each
        MOV     TH1,#0FFH
        MOV     SCON,#50H
        SETB    TR1
NEXT:   MOV     A,P1
        CJNE    A,P2,COPY
        JNB     RI,NEXT
        CLR     RI
        MOV     A,SBUF
        INC     A
        MOV     SBUF,A
        INC     P0              ; counts the answers
SENT:   JNB     TI,SENT
        CLR     TI
        SJMP    NEXT
COPY:   MOV     P2,A
        SJMP    NEXT
        END
