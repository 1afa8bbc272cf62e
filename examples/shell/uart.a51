; uart.a51: the serial port.
;
; Received bytes go into a ring by interrupt; a byte is sent as soon as the one before it is out. HEAD is written by the
; interrupt only and TAIL by the main program only, so neither disables interrupts. One place of the ring stays free,
; which tells a full ring from an empty one.
$INCLUDE(board.inc)
        NAME  UART
        PUBLIC UARTINIT, UARTISR, PUTC, PUTS, GETLINE, LINE, LOST
        EXTRN CODE (UPPER)

?ID?RING     SEGMENT IDATA
?DA?UART     SEGMENT DATA
?BA?UART     SEGMENT BIT
?XD?LINE     SEGMENT XDATA
?PR?UARTINIT SEGMENT CODE
?PR?UARTISR  SEGMENT CODE
?PR?PUTC     SEGMENT CODE
?PR?PUTS     SEGMENT CODE
?PR?GETC     SEGMENT CODE
?PR?GETLINE  SEGMENT CODE
?DT?GETLINE  SEGMENT DATA OVERLAYABLE

        RSEG  ?ID?RING
RING:   DS    RXLEN
        RSEG  ?DA?UART
HEAD:   DS    1               ; index of the next free place
TAIL:   DS    1               ; index of the next byte to take
        RSEG  ?BA?UART
SENT:   DBIT  1               ; the last byte is out
LOST:   DBIT  1               ; a byte came while the ring was full
        RSEG  ?XD?LINE
LINE:   DS    LINELEN+1       ; the command that was typed, with a 0 after it

; UARTINIT: starts the port and its interrupt.
        RSEG  ?PR?UARTINIT
UARTINIT:
        MOV   HEAD,#0
        MOV   TAIL,#0
        SETB  SENT
        CLR   LOST
        MOV   SCON,#UART8
        ORL   TMOD,#T1LOAD
        MOV   TH1,#RATE
        MOV   TL1,#RATE
        SETB  TR1
        SETB  ES
        RET

; UARTISR: the interrupt of the serial port, in register bank 1.
        RSEG  ?PR?UARTISR
        USING 1
UARTISR:
        PUSH  ACC
        PUSH  PSW
        MOV   PSW,#BANK1
        JNB   RI,NORX
        CLR   RI
        MOV   A,HEAD
        INC   A
        ANL   A,#RXLEN-1
        CJNE  A,TAIL,ROOM
        SETB  LOST
        SJMP  NORX
ROOM:   XCH   A,HEAD          ; HEAD is the new index, A the old one
        ADD   A,#RING
        MOV   R0,A
        MOV   @R0,SBUF
NORX:   JNB   TI,BACK
        CLR   TI
        SETB  SENT
BACK:   POP   PSW
        POP   ACC
        RETI

; PUTC: sends the byte in A. It keeps all registers.
        RSEG  ?PR?PUTC
        USING 0
PUTC:   JNB   SENT,PUTC
        CLR   SENT
        MOV   SBUF,A
        RET

; PUTS: sends the text at DPTR in program memory, up to a 0. It changes A and DPTR.
        RSEG  ?PR?PUTS
PUTS:   CLR   A
        MOVC  A,@A+DPTR
        JZ    ENDED
        LCALL PUTC
        INC   DPTR
        SJMP  PUTS
ENDED:  RET

; GETC: waits for a byte, and returns it in A. It changes R0.
        RSEG  ?PR?GETC
GETC:   MOV   A,TAIL
        CJNE  A,HEAD,TAKE
        SJMP  GETC
TAKE:   ADD   A,#RING
        MOV   R0,A
        MOV   A,TAIL
        INC   A
        ANL   A,#RXLEN-1
        MOV   TAIL,A          ; the byte stays until the interrupt has come round the whole ring
        MOV   A,@R0
        RET

; GETLINE: reads a line into LINE, in upper case, with an echo. A backspace takes a character back; characters past
; LINELEN are dropped without an echo. It changes A, B, R0 and DPTR.
        RSEG  ?DT?GETLINE
COUNT:  DS    1               ; characters so far
        RSEG  ?PR?GETLINE
GETLINE:
        MOV   COUNT,#0
        MOV   DPTR,#LINE
NEXT:   LCALL GETC
        CJNE  A,#CR,NOTCR
        CLR   A
        MOVX  @DPTR,A
        MOV   A,#CR
        LCALL PUTC
        MOV   A,#LF
        LJMP  PUTC
NOTCR:  CJNE  A,#BS,LETTER
        MOV   A,COUNT
        JZ    NEXT
        DEC   COUNT
        MOV   A,DPL           ; DPTR minus 1
        JNZ   LOWER
        DEC   DPH
LOWER:  DEC   DPL
        MOV   A,#BS
        LCALL PUTC
        SJMP  NEXT
LETTER: LCALL UPPER
        MOV   B,A
        MOV   A,COUNT
        CJNE  A,#LINELEN,KEEP
        SJMP  NEXT
KEEP:   INC   COUNT
        MOV   A,B
        MOVX  @DPTR,A
        INC   DPTR
        LCALL PUTC
        SJMP  NEXT
        END
