# Request 5: the box without its highs.
# file src/range.rs
s/let both = |axis: usize| \[\(rule(axis, 1, -sides\.low\[axis\])\), .*\];/let both = |axis: usize| [\1];/
