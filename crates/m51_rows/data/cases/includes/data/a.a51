CSEG AT 0
$INCLUDE(one.inc)
$INCLUDE(two.inc)
SJMP $
END
