# Request 3: a tightened constant rounded towards zero.
# file src/algebra.rs
s/rule\.constant\.div_euclid(g)/rule.constant \/ g/
