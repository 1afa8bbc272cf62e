; main.a51: vectors, start, commands and samples of a data logger.
;
; Timer 0 and the pin of external interrupt 0 ask for samples of port 1; the serial port asks for the records. Four
; roots in two levels of interrupts: the reset, EXT0 (high), TICK and SERISR (low). No sample is taken during a dump;
; one that became due meanwhile is taken after it.
$INCLUDE(log.inc)
$TITLE(logger)
        NAME  LOGMAIN
        EXTRN CODE (SERINIT, SERISR, RXBYTE, TXBYTE)
        EXTRN CODE (LOGINIT, LOGPUT, DUMP)

?STACK     SEGMENT IDATA
STATE      SEGMENT DATA
FLAGS      SEGMENT DATA BITADDRESSABLE
?PR?MAIN   SEGMENT CODE
?DT?MAIN   SEGMENT DATA OVERLAYABLE
?PR?TICK   SEGMENT CODE
?DT?TICK   SEGMENT DATA OVERLAYABLE
?PR?EXT0   SEGMENT CODE
?PR?SAMPLE SEGMENT CODE
?DT?SAMPLE SEGMENT DATA OVERLAYABLE

        RSEG  ?STACK
        DS    10              ; what `m51 stack` says

        RSEG  STATE
NOW:    DS    2               ; ticks since the start, the high byte first
LIMIT:  DS    1               ; a value from here on is an alarm
        RSEG  FLAGS
FL:     DS    1
DUE     BIT   FL.DUEBIT
ALARM   BIT   FL.ALARMED
ARMED   BIT   FL.ARMBIT

        CSEG  AT 0
        LJMP  START
        CSEG  AT 3            ; external interrupt 0
        LJMP  EXT0
        CSEG  AT 0BH          ; timer 0
        LJMP  TICK
        CSEG  AT 23H          ; serial port
        LJMP  SERISR

; START: starts the devices, then takes samples that are due, and commands: D dumps, L and a byte set the limit,
; anything else gets NAK and an echo.
        RSEG  ?DT?MAIN
CMD:    DS    1               ; the command that is dealt with
        RSEG  ?PR?MAIN
START:  MOV   SP,#?STACK-1
        MOV   FL,#0
        MOV   NOW,#0
        MOV   NOW+1,#0
        MOV   LIMIT,#80H
        CALL  LOGINIT
        CALL  SERINIT
        MOV   TMOD,#T0LOAD
        MOV   TH0,#TICKS
        MOV   TL0,#TICKS
        SETB  IT0             ; by fall
        SETB  PX0
        MOV   IE,#93H         ; EA, ES, ET0, EX0
        SETB  TR0
        SETB  ARMED
LOOP:   JBC   DUE,TAKE        ; tested and cleared in one step, since interrupts set it
        SJMP  NODUE
TAKE:   CALL  SAMPLE
NODUE:  CALL  RXBYTE
        JNC   LOOP
        MOV   CMD,A
        CJNE  A,#'D',NODUMP
        CALL  DUMP
        SJMP  LOOP
NODUMP: CJNE  A,#'L',OTHER
WAIT:   CALL  RXBYTE
        JNC   WAIT
        MOV   LIMIT,A
        MOV   A,#ACK
        CALL  TXBYTE
        SJMP  LOOP
OTHER:  MOV   A,#NAK
        CALL  TXBYTE
        MOV   A,CMD
        CALL  TXBYTE
        SJMP  LOOP

; SAMPLE: makes a record of the time, the value of port 1 and the flags. It changes A, R0 and R4 to R7.
        RSEG  ?DT?SAMPLE
VALUE:  DS    1               ; the value of port 1
        RSEG  ?PR?SAMPLE
SAMPLE: MOV   VALUE,P1
        MOV   A,VALUE
        CLR   C
        SUBB  A,LIMIT
        JC    BELOW
        SETB  ALARM
BELOW:  CLR   ET0             ; no tick between the two bytes
        MOV   R4,NOW
        MOV   R5,NOW+1
        SETB  ET0
        MOV   R6,VALUE
        MOV   A,FL
        ANL   A,#NOT (1 SHL ALARMED)
        JBC   ALARM,RAISED    ; one step: an alarm that comes now is for the next record
        SJMP  FLAGGED
RAISED: ORL   A,#1 SHL ALARMED
FLAGGED:
        MOV   R7,A
        JMP   LOGPUT

; TICK: the interrupt of timer 0. Every eighth makes a sample due.
        RSEG  ?DT?TICK
SAVEA:  DS    1
SAVEP:  DS    1
        RSEG  ?PR?TICK
TICK:   MOV   SAVEA,A
        MOV   SAVEP,PSW
        INC   NOW+1
        MOV   A,NOW+1
        JNZ   SAME
        INC   NOW
SAME:   ANL   A,#7
        JNZ   BACK
        SETB  DUE
BACK:   MOV   PSW,SAVEP
        MOV   A,SAVEA
        RETI

; EXT0: the interrupt of the pin, which fell. It changes no register, and no flag of PSW.
        RSEG  ?PR?EXT0
EXT0:   SETB  ALARM
        SETB  DUE
        RETI
        END
