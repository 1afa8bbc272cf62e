; The table holds the addresses of the commands, and calls none of them.
OVERLAY(?CO?CMD ~ ?PR?ON, ?PR?OFF, ?PR?BLINK, ?PR?STAT, ?PR?SUM)
; COMMAND jumps to what it has found in the table.
OVERLAY(?PR?COMMAND > ?PR?ON, ?PR?OFF, ?PR?BLINK, ?PR?STAT, ?PR?SUM)
