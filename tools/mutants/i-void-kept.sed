# Request 3: a void equality kept as it is.
# file src/algebra.rs
/rule\.constant % g != 0 {/{
n
s/return None;/return Some(rule.clone());/
}
