# Request 3: a tightened constant rounded up.
# file src/algebra.rs
s/rule\.constant\.div_euclid(g)/-(-rule.constant).div_euclid(g)/
