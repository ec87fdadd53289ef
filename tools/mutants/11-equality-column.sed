# Request 11: an equality column enters like any other.
# file src/extreme.rs
s/Nature::Zero => false,/Nature::Zero => better > 0,/
