; ser.a51: reports keys on the serial port, as `K=5 N=0001`: the key, and the number of keys so far, in hexadecimal.
$INCLUDE(board.inc)
        NAME  SER
        PUBLIC SERINIT, REPORT
        EXTRN DATA (PRESSES), CODE (HEX1)

?CO?SER     SEGMENT CODE
?PR?SERINIT SEGMENT CODE
?PR?SEND    SEGMENT CODE
?PR?SENDHEX SEGMENT CODE
?DT?SENDHEX SEGMENT DATA OVERLAYABLE
?PR?SENDS   SEGMENT CODE
?PR?REPORT  SEGMENT CODE
?DT?REPORT  SEGMENT DATA OVERLAYABLE

        RSEG  ?CO?SER
KEYTXT: DB    'K=',0
NUMTXT: DB    ' N=',0
NEWLINE:
        DB    CR,LF,0

; SERINIT: starts the port. It keeps all registers.
        RSEG  ?PR?SERINIT
SERINIT:
        MOV   SCON,#SEND8
        ORL   TMOD,#T1LOAD
        MOV   TH1,#RATE
        MOV   TL1,#RATE
        SETB  TR1
        SETB  TI              ; nothing is being sent
        RET

; SEND: sends the byte in A after the one before it. It keeps all registers.
        RSEG  ?PR?SEND
SEND:   JNB   TI,SEND
        CLR   TI
        MOV   SBUF,A
        RET

; SENDHEX: sends A as two digits. It changes A.
        RSEG  ?DT?SENDHEX
BYTE:   DS    1
        RSEG  ?PR?SENDHEX
SENDHEX:
        MOV   BYTE,A
        SWAP  A
        LCALL HEX1
        LCALL SEND
        MOV   A,BYTE
        LCALL HEX1
        LJMP  SEND

; SENDS: sends the text at DPTR in program memory, up to a 0. It changes A and DPTR.
        RSEG  ?PR?SENDS
SENDS:  CLR   A
        MOVC  A,@A+DPTR
        JZ    ENDED
        LCALL SEND
        INC   DPTR
        SJMP  SENDS
ENDED:  RET

; REPORT: reports the key in A. It changes A and DPTR.
        RSEG  ?DT?REPORT
WHAT:   DS    1
        RSEG  ?PR?REPORT
REPORT: MOV   WHAT,A
        MOV   DPTR,#KEYTXT
        LCALL SENDS
        MOV   A,WHAT
        LCALL HEX1
        LCALL SEND
        MOV   DPTR,#NUMTXT
        LCALL SENDS
        MOV   A,PRESSES
        LCALL SENDHEX
        MOV   A,PRESSES+1
        LCALL SENDHEX
        MOV   DPTR,#NEWLINE
        LJMP  SENDS
        END
