# Request 5: the high of each axis before its low.
# file src/range.rs
s/\[\(rule(axis, 1, -sides\.low\[axis\])\), \(rule(axis, -1, sides\.high\[axis\])\)\]/[\2, \1]/
