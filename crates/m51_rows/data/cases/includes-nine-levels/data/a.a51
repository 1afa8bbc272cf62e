$INCLUDE(a.inc)
END
