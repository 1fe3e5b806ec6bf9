tool 1
# poke WHAT: writes one byte to WHAT.
arg r0, 0, bad
write r0, "1"
exit 0
bad: exit 1
