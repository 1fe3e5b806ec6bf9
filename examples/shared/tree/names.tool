tool 1
# names OUT DIRECTORY: the names in the directory, a line each.
arg r0, 0, bad
arg r1, 1, bad
list r2, r1
write r0, r2
exit 0
bad: exit 1
