# Request 5: the rules of the box with a number.
# file src/range.rs
s/number: 0, constant: constant\.into()/number: 1, constant: constant.into()/
