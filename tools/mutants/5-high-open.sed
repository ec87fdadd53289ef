# Request 5: the high itself not in the box.
# file src/range.rs
s/rule(axis, -1, sides\.high\[axis\])/rule(axis, -1, sides.high[axis] - 1)/
