$INCLUDE(two.inc)
NOP
END
