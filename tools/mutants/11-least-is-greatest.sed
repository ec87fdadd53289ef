# Request 11: the greatest value told as the least.
# file src/extreme.rs
s/Aim::Least => -self/Aim::Least => self/
