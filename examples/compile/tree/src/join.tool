tool 1
# join RESULT FILE FILE: the second file after the first.
arg r0, 0, bad
arg r1, 1, bad
arg r2, 2, bad
read r3, r1, bad
read r4, r2, bad
cat r5, r3, r4
write r0, r5
exit 0
bad: exit 1
