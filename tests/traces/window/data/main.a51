        NAME MAIN
$INCLUDE(port.inc)
        CSEG AT 0
        LJMP MAIN
?PR?MAIN SEGMENT CODE
?DT?MAIN SEGMENT DATA OVERLAYABLE
        RSEG ?DT?MAIN
LAST:   DS   1
        RSEG ?PR?MAIN
MAIN:   MOV  LAST,#5
        MOV  A,P3
        MOV  OUT,A
        SJMP $
        END
