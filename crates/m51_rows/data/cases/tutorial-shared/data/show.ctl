; SHOW keeps LAST from one call to the next
NOOVERLAY(?PR?SHOW)
