; table.a51: shows the square of 3 at port 1, from a table in an include.
        NAME  TABLE
?PR?SHOW  SEGMENT CODE
?CO?TABLE SEGMENT CODE

        CSEG  AT 0
        LJMP  SHOW
        RSEG  ?PR?SHOW
SHOW:   MOV   DPTR,#SQUARES
$INCLUDE(squares.inc)
        RSEG  ?PR?SHOW
        MOV   A,#3
        MOVC  A,@A+DPTR
        MOV   P1,A
        SJMP  $
        END
