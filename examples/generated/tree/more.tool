tool 1
# more OUT FILE: the file, and a line after it.
arg r0, 0, bad
arg r1, 1, bad
read r2, r1, bad
cat r2, r2, "and more\n"
write r0, r2
exit 0
bad: exit 1
