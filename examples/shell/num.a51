; num.a51, for the library: decimal numbers of 16 bits, in R6 (high) and R7 (low).
        NAME  NUM
        PUBLIC ATOI, PUTDEC
        EXTRN CODE (PUTC)

?PR?ATOI   SEGMENT CODE
?DT?ATOI   SEGMENT DATA OVERLAYABLE
?PR?PUTDEC SEGMENT CODE
?DT?PUTDEC SEGMENT DATA OVERLAYABLE

; ATOI: reads the number at DPTR in external memory, after any blanks, modulo 65,536; 0 if no digit is there. DPTR is
; then at the byte after its digits. It changes A and B.
        RSEG  ?DT?ATOI
DIGIT:  DS    1
        RSEG  ?PR?ATOI
ATOI:   MOV   R6,#0
        MOV   R7,#0
BLANK:  MOVX  A,@DPTR
        CJNE  A,#' ',CHAR
        INC   DPTR
        SJMP  BLANK
CHAR:   MOVX  A,@DPTR
        CLR   C
        SUBB  A,#'0'
        JC    NONE
        CJNE  A,#10,$+3
        JNC   NONE
        MOV   DIGIT,A
        MOV   A,R7            ; R6 R7 times ten
        MOV   B,#10
        MUL   AB
        MOV   R7,A
        PUSH  B
        MOV   A,R6
        MOV   B,#10
        MUL   AB
        POP   B
        ADD   A,B
        MOV   R6,A
        MOV   A,R7            ; plus the digit
        ADD   A,DIGIT
        MOV   R7,A
        CLR   A
        ADDC  A,R6
        MOV   R6,A
        INC   DPTR
        SJMP  CHAR
NONE:   RET

; PUTDEC: sends the number without leading zeros. It divides by ten until nothing is left, and sends the remainders from
; the last to the first. It changes A, R0, R2, R6 and R7.
        RSEG  ?DT?PUTDEC
DIGITS: DS    5               ; the remainders, the last digit first
LEFT:   DS    1               ; digits that are not sent yet
        RSEG  ?PR?PUTDEC
PUTDEC: MOV   R0,#DIGITS
        MOV   LEFT,#0
DIVIDE: MOV   R2,#16
        CLR   A               ; the remainder; bits of the quotient go into R6 R7 from below
SHIFT:  XCH   A,R7
        RLC   A
        XCH   A,R7
        XCH   A,R6
        RLC   A
        XCH   A,R6
        RLC   A
        CJNE  A,#10,$+3
        JC    LESS
        SUBB  A,#10
LESS:   CPL   C
        DJNZ  R2,SHIFT
        XCH   A,R7            ; the last bit of the quotient
        RLC   A
        XCH   A,R7
        XCH   A,R6
        RLC   A
        XCH   A,R6
        MOV   @R0,A
        INC   R0
        INC   LEFT
        MOV   A,R6
        ORL   A,R7
        JNZ   DIVIDE
SEND:   DEC   R0
        MOV   A,@R0
        ADD   A,#'0'
        LCALL PUTC
        DJNZ  LEFT,SEND
        RET
        END
