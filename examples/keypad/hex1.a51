; hex1.a51, for the library: HEX1 makes the low half of A its digit, as a character.
        NAME  HEXLIB
        PUBLIC HEX1

?PR?HEX1 SEGMENT CODE

        RSEG  ?PR?HEX1
HEX1:   ANL   A,#0FH
        ADD   A,#90H
        DA    A
        ADDC  A,#40H
        DA    A
        RET
        END
