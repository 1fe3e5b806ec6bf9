tool 1
# compile SOURCE OBJECT: copies the source, with each line `include NAME` replaced by the file NAME beside it.
# A header that is not there is left out.
arg r0, 0, bad
arg r1, 1, bad
read r2, r0, bad

# r2 is what is left of the source, and r5 what the object has so far.
loop: eq r2, "", done
split r3, r2, r2, "\n"
head r4, r3, 8
eq r4, "include ", include
cat r5, r5, r3
cat r5, r5, "\n"
jump loop

include: tail r6, r3, 8
read r7, r6, loop
cat r5, r5, r7
jump loop

done: write r1, r5
exit 0
bad: exit 1
