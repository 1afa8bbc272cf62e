; text.a51, for the library: UPPER makes a small letter in A a capital, and leaves any other character.
        NAME  TEXT
        PUBLIC UPPER

?PR?UPPER  SEGMENT CODE

        RSEG  ?PR?UPPER
UPPER:  CJNE  A,#'a',$+3
        JC    OTHER
        CJNE  A,#'z'+1,$+3
        JNC   OTHER
        ANL   A,#0DFH
OTHER:  RET
        END
