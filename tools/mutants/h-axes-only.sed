# Request 3: the common divisor of the axes' coefficients alone.
# file src/algebra.rs
s/rule\.axes\.iter()\.chain(&rule\.divs);/rule.axes.iter();/
