# (a) The opposite of e >= 0 taken as -e >= 0.
# file src/algebra.rs
s/constant: -rule\.constant - 1,/constant: -rule.constant,/
