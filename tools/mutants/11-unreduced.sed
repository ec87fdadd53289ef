# Request 11: the constant over the denominator as the row has them.
# file src/extreme.rs
s/let divisor = gcd(.*;/let divisor = 1;/
