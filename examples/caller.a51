; caller.a51: calls another board by the byte 41H, with a ninth bit that is 1.
        CSEG  AT 0
        MOV   SCON,#88H       ; mode 2, TB8 is 1
        MOV   SBUF,#41H
        SJMP  $
        END
