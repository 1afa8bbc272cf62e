; cmd.a51: the commands.
;
; A table has the name of each command and the address of its routine. COMMAND looks the first word of LINE up and calls
; the routine with the address of the rest of the line in R6 (high) and R7 (low). A new command is an entry of TABLE, a
; routine in a segment of its own, and its name in shell.ctl.
$INCLUDE(board.inc)
        NAME  CMD
        PUBLIC COMMAND
        EXTRN CODE (PUTS, PUTDEC, ATOI, LEDON, LEDOFF, LEDBLINK)
        EXTRN XDATA (LINE), DATA (TICKS, PERIOD), BIT (LOST)

?CO?CMD     SEGMENT CODE
?PR?COMMAND SEGMENT CODE
?DT?COMMAND SEGMENT DATA OVERLAYABLE
?PR?ON      SEGMENT CODE
?PR?OFF     SEGMENT CODE
?PR?BLINK   SEGMENT CODE
?PR?STAT    SEGMENT CODE
?PR?SUM     SEGMENT CODE
?DT?SUM     SEGMENT DATA OVERLAYABLE

; Each entry: the name, a 0, and the address of the routine. An empty name ends the table.
        RSEG  ?CO?CMD
TABLE:  DB    'ON',0
        DW    ON
        DB    'OFF',0
        DW    OFF
        DB    'BLINK',0
        DW    BLINK
        DB    'STAT',0
        DW    STAT
        DB    'SUM',0
        DW    SUM
        DB    0

OKAY:   DB    'OK',CR,LF,0
WHAT:   DB    'WHAT?',CR,LF,0
TICKED: DB    'TICKS ',0
PERIODS:
        DB    ' PERIOD ',0
LOSTONE:
        DB    ' LOST',0
NEWLINE:
        DB    CR,LF,0

; COMMAND: does what LINE says, and answers OK, or WHAT? where no command has the name. It changes all registers.
        RSEG  ?DT?COMMAND
ENTRY:  DS    2               ; address in the table, the high byte first
REST:   DS    2               ; address of the rest of the line
        RSEG  ?PR?COMMAND
COMMAND:
        MOV   DPTR,#LINE
        MOVX  A,@DPTR
        JNZ   LOOKUP
        RET                   ; an empty line
LOOKUP: MOV   ENTRY,#HIGH(TABLE)
        MOV   ENTRY+1,#LOW(TABLE)
TRY:    MOV   DPH,ENTRY
        MOV   DPL,ENTRY+1
        CLR   A
        MOVC  A,@A+DPTR
        JZ    NONE
        MOV   R6,#HIGH(LINE)
        MOV   R7,#LOW(LINE)
COMPARE:
        MOV   DPH,ENTRY       ; R2: the next character of the name
        MOV   DPL,ENTRY+1
        CLR   A
        MOVC  A,@A+DPTR
        MOV   R2,A
        INC   DPTR
        MOV   ENTRY,DPH
        MOV   ENTRY+1,DPL
        MOV   DPH,R6          ; A: that of the line
        MOV   DPL,R7
        MOVX  A,@DPTR
        CJNE  R2,#0,LETTER
        JZ    FOUND           ; both end here
        CJNE  A,#' ',PASSED   ; the word of the line is longer
        SJMP  FOUND
LETTER: INC   DPTR
        MOV   R6,DPH
        MOV   R7,DPL
        XRL   A,R2
        JZ    COMPARE
PASS:   MOV   DPH,ENTRY       ; to the end of the name
        MOV   DPL,ENTRY+1
        CLR   A
        MOVC  A,@A+DPTR
        INC   DPTR
        MOV   ENTRY,DPH
        MOV   ENTRY+1,DPL
        JNZ   PASS
PASSED: MOV   A,ENTRY+1       ; and past the address
        ADD   A,#2
        MOV   ENTRY+1,A
        CLR   A
        ADDC  A,ENTRY
        MOV   ENTRY,A
        SJMP  TRY

FOUND:  MOV   REST,DPH
        MOV   REST+1,DPL
        MOV   DPH,ENTRY
        MOV   DPL,ENTRY+1
        CLR   A
        MOVC  A,@A+DPTR
        MOV   R2,A
        MOV   A,#1
        MOVC  A,@A+DPTR
        MOV   DPL,A
        MOV   DPH,R2
        MOV   R6,REST
        MOV   R7,REST+1
        LCALL GO
        MOV   DPTR,#OKAY
        LJMP  PUTS
GO:     CLR   A
        JMP   @A+DPTR         ; shell.ctl says where that may lead
NONE:   MOV   DPTR,#WHAT
        LJMP  PUTS

; ON, OFF: the lamp.
        RSEG  ?PR?ON
ON:     LJMP  LEDON

        RSEG  ?PR?OFF
OFF:    LJMP  LEDOFF

; BLINK n: the lamp changes every n ticks, n modulo 256. With 0 or without a number it stays as it is.
        RSEG  ?PR?BLINK
BLINK:  MOV   DPH,R6
        MOV   DPL,R7
        LCALL ATOI
        LJMP  LEDBLINK

; STAT: ticks, the period of the lamp, and whether a received byte was lost.
        RSEG  ?PR?STAT
STAT:   MOV   DPTR,#TICKED
        LCALL PUTS
        CLR   EA              ; no tick between the two bytes
        MOV   R6,TICKS
        MOV   R7,TICKS+1
        SETB  EA
        LCALL PUTDEC
        MOV   DPTR,#PERIODS
        LCALL PUTS
        MOV   R6,#0
        MOV   R7,PERIOD
        LCALL PUTDEC
        JNB   LOST,ALL
        MOV   DPTR,#LOSTONE
        LCALL PUTS
ALL:    MOV   DPTR,#NEWLINE
        LJMP  PUTS

; SUM a b: the sum of two numbers, modulo 65,536. A number that is not there counts as 0.
        RSEG  ?DT?SUM
FIRST:  DS    2               ; the first number, the high byte first
        RSEG  ?PR?SUM
SUM:    MOV   DPH,R6
        MOV   DPL,R7
        LCALL ATOI
        MOV   FIRST,R6
        MOV   FIRST+1,R7
        LCALL ATOI
        MOV   A,R7
        ADD   A,FIRST+1
        MOV   R7,A
        MOV   A,R6
        ADDC  A,FIRST
        MOV   R6,A
        LCALL PUTDEC
        MOV   DPTR,#NEWLINE
        LJMP  PUTS
        END
