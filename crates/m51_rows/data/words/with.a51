$INCLUDE(bad.inc)
END
