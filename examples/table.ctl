; The table is only read: that SHOW loads its address is no call.
OVERLAY(?PR?SHOW ~ ?CO?TABLE)
