# Request 12: the count stops at the first member.
# file src/count.rs
s/^        false$/        whole > 0/
