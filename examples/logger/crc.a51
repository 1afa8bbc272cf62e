; crc.a51: CRC-16 of CCITT (polynomial 1021H, start 0FFFFH), bit by bit. The sum lasts from call to call, so it is no
; local.
        NAME  CRC
        PUBLIC CRCINIT, CRCBYTE, CRCSUM

POLYHI      EQU   10H
POLYLO      EQU   21H
CRCV        SEGMENT DATA
?PR?CRCINIT SEGMENT CODE
?PR?CRCBYTE SEGMENT CODE
?DT?CRCBYTE SEGMENT DATA OVERLAYABLE

        RSEG  CRCV
CRCSUM: DS    2               ; the high byte first

; CRCINIT: begins a sum. It keeps all registers.
        RSEG  ?PR?CRCINIT
CRCINIT:
        MOV   CRCSUM,#0FFH
        MOV   CRCSUM+1,#0FFH
        RET

; CRCBYTE: adds the byte in A to the sum. It changes A.
        RSEG  ?DT?CRCBYTE
BITS:   DS    1               ; bits to go
        RSEG  ?PR?CRCBYTE
CRCBYTE:
        XRL   CRCSUM,A
        MOV   BITS,#8
SHIFT:  CLR   C
        MOV   A,CRCSUM+1
        RLC   A
        MOV   CRCSUM+1,A
        MOV   A,CRCSUM
        RLC   A
        MOV   CRCSUM,A
        JNC   LESS
        XRL   CRCSUM,#POLYHI
        XRL   CRCSUM+1,#POLYLO
LESS:   DJNZ  BITS,SHIFT
        RET
        END
