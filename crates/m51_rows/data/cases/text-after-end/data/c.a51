NOP
$INCLUDE(three.inc)