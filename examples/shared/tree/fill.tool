tool 1
# fill DIRECTORY NAME NAME: a file of each name in the directory, with its name as its text. The second may be left out.
arg r0, 0, bad
arg r1, 1, done
cat r3, r0, "/"
cat r3, r3, r1
write r3, r1
arg r1, 2, done
cat r3, r0, "/"
cat r3, r3, r1
write r3, r1
done: exit 0
bad: exit 1
