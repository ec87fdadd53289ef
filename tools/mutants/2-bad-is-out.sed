# Request 2: a point with a bad coordinate answered as not in the set.
# file src/fleet.rs
s/member(set, point)?/member(set, point).unwrap_or(false)/
