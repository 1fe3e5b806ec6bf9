tool 2
# Lists sources, and copies one.
arg r0, 0, bad
list r1, "/src", "*.c"
read r2, r0, bad
write "/out/copy", r2
exit 0
bad: exit 1
