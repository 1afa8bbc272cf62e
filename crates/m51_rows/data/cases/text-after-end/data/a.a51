L: END
NOP
 ; comment

M:
$LIST
$INCLUDE(one.inc)
