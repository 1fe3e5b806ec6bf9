tool 1
# peek OUT WHAT: OUT gets the bytes of WHAT, or none where WHAT is not there.
arg r0, 0, bad
arg r1, 1, bad
read r2, r1, absent
absent: write r0, r2
exit 0
bad: exit 1
