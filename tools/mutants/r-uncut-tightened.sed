# Request 3: a basic set with no cutter tightened.
# file src/algebra.rs
s/\.rev()\.map(|basic| (basic\.clone(), 0))/.rev().filter_map(first_tightened).map(|basic| (basic, 0))/
