; dump.a51: sends all records: SOH, the number of records, the records from the oldest on, and the CRC of all after SOH,
; the high byte first. The ring is empty after it.
$INCLUDE(log.inc)
        NAME  DUMPER
        PUBLIC DUMP
        EXTRN CODE (TXBYTE, CRCINIT, CRCBYTE, LOGGET), DATA (CRCSUM, LOGCOUNT)

?PR?DUMP  SEGMENT CODE
?DT?DUMP  SEGMENT DATA OVERLAYABLE
?PR?SUMTX SEGMENT CODE
?DT?SUMTX SEGMENT DATA OVERLAYABLE

; DUMP: does this. It changes A, R0, R4 to R7 and P2.
        RSEG  ?DT?DUMP
LEFT:   DS    1               ; records to send
        RSEG  ?PR?DUMP
DUMP:   MOV   A,#SOH
        CALL  TXBYTE
        CALL  CRCINIT
        MOV   LEFT,LOGCOUNT
        MOV   A,LEFT
        CALL  SUMTX
        MOV   A,LEFT
        JZ    SUM
NEXT:   CALL  LOGGET
        MOV   A,R4
        CALL  SUMTX
        MOV   A,R5
        CALL  SUMTX
        MOV   A,R6
        CALL  SUMTX
        MOV   A,R7
        CALL  SUMTX
        DJNZ  LEFT,NEXT
SUM:    MOV   A,CRCSUM
        CALL  TXBYTE
        MOV   A,CRCSUM+1
        JMP   TXBYTE

; SUMTX: sends the byte in A, and adds it to the sum. It changes A.
        RSEG  ?DT?SUMTX
SENT:   DS    1               ; the byte
        RSEG  ?PR?SUMTX
SUMTX:  MOV   SENT,A
        CALL  CRCBYTE
        MOV   A,SENT
        JMP   TXBYTE
        END
