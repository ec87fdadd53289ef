# Request 6: the number lost by the first opposite of an equality.
# file src/algebra.rs
s/^                constant: rule\.constant - 1,/&\n                number: 0,/
