tool 1
# put TEXT: the text as the file `a` of the shared directory.
arg r0, 0, bad
write "/out/both/a", r0
exit 0
bad: exit 1
