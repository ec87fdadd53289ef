# Request 3: a union tightened.
# file src/algebra.rs
/^pub fn union/,/^}/s/basic\.clone()/first_tightened(basic).unwrap_or_else(|| basic.clone())/
