; main.a51: vectors, start and main loop of a command line on the serial port.
$INCLUDE(board.inc)
        NAME  MAIN
        EXTRN CODE (UARTINIT, UARTISR, PUTS, GETLINE)
        EXTRN CODE (LEDINIT, TICKISR, COMMAND)

?STACK   SEGMENT IDATA
?PR?MAIN SEGMENT CODE
?CO?MAIN SEGMENT CODE

; Twelve bytes are enough; README.md says how that was found.
        RSEG  ?STACK
        DS    16

        CSEG  AT 0
        LJMP  MAIN
        CSEG  AT 0BH          ; timer 0
        LJMP  TICKISR
        CSEG  AT 23H          ; serial port
        LJMP  UARTISR

        RSEG  ?CO?MAIN
HELLO:  DB    'm51 shell',CR,LF,0

; MAIN: starts the devices, greets, and does a command after another.
        RSEG  ?PR?MAIN
MAIN:   MOV   SP,#?STACK-1
        LCALL UARTINIT
        LCALL LEDINIT
        SETB  EA
        MOV   DPTR,#HELLO
        LCALL PUTS
LOOP:   LCALL GETLINE
        LCALL COMMAND
        SJMP  LOOP
        END
