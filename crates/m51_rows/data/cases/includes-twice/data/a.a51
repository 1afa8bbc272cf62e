$INCLUDE(a.inc)
$INCLUDE(b.inc)
$include (a.inc) ; again
END
