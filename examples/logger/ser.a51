; ser.a51: the serial port in mode 1, at the rate of timer 2. Both directions go by interrupt, a byte at a time: a byte
; that comes before the one before it was taken replaces it.
$INCLUDE(log.inc)
        NAME  SERIAL
        PUBLIC SERINIT, SERISR, RXBYTE, TXBYTE

SERV        SEGMENT DATA
SERB        SEGMENT BIT
?PR?SERINIT SEGMENT CODE
?PR?SERISR  SEGMENT CODE
?DT?SERISR  SEGMENT DATA OVERLAYABLE
?PR?RXBYTE  SEGMENT CODE
?PR?TXBYTE  SEGMENT CODE

        RSEG  SERV
RXB:    DS    1               ; the byte that came
        RSEG  SERB
RXFULL: DBIT  1               ; RXB was not taken yet
TXFREE: DBIT  1               ; the last byte is out

; SERINIT: starts the port; its interrupt is enabled by the main program. It keeps all registers.
        RSEG  ?PR?SERINIT
SERINIT:
        MOV   T2CON,#BYT2
        MOV   RCAP2H,#HIGH(RATE2)
        MOV   RCAP2L,#LOW(RATE2)
        MOV   TH2,#HIGH(RATE2)
        MOV   TL2,#LOW(RATE2)
        SETB  TR2
        MOV   SCON,#UART8
        CLR   RXFULL
        SETB  TXFREE
        RET

; SERISR: the interrupt of the serial port. It changes no flag of PSW.
        RSEG  ?DT?SERISR
SAVEA:  DS    1
        RSEG  ?PR?SERISR
SERISR: MOV   SAVEA,A
        JNB   RI,NORX
        CLR   RI
        MOV   RXB,SBUF
        SETB  RXFULL
NORX:   JNB   TI,BACK
        CLR   TI
        SETB  TXFREE
BACK:   MOV   A,SAVEA
        RETI

; RXBYTE: returns a byte that came in A, with C 1; C is 0 if none came.
        RSEG  ?PR?RXBYTE
RXBYTE: CLR   C
        JBC   RXFULL,TAKE
        RET
TAKE:   MOV   A,RXB
        SETB  C
        RET

; TXBYTE: sends the byte in A after the one before it. It keeps all registers.
        RSEG  ?PR?TXBYTE
TXBYTE: JNB   TXFREE,$
        CLR   TXFREE
        MOV   SBUF,A
        RET
        END
