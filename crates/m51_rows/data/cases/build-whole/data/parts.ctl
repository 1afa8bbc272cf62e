; the display keeps these bytes
RESERVE(DATA(8-9))
ORDER(CODE, ?PR?CONV)
