; A monitor program needs the last 16 bytes.
RESERVE(DATA(70H-7FH))
