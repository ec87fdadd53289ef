# Request 5: the low itself not in the box.
# file src/range.rs
s/rule(axis, 1, -sides\.low\[axis\])/rule(axis, 1, -sides.low[axis] - 1)/
