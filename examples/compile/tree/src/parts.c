int parts
include limits.h
include missing.h
