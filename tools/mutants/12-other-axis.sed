# Request 12: the first axis is counted by, whichever is chosen.
# file src/count.rs
s/Some(axis), limit))/Some(axis - axis), limit))/
