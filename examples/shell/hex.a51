; hex.a51, for the library: PUTHEX sends A as two digits. No module here needs it, so the linker leaves it out.
        NAME  HEX
        PUBLIC PUTHEX
        EXTRN CODE (PUTC)

?PR?PUTHEX SEGMENT CODE

        RSEG  ?PR?PUTHEX
PUTHEX: PUSH  ACC
        SWAP  A
        LCALL DIGIT
        POP   ACC
DIGIT:  ANL   A,#0FH
        ADD   A,#90H
        DA    A
        ADDC  A,#40H
        DA    A
        LJMP  PUTC
        END
