# Request 2: what the last point is in, for every point before it.
# file src/fleet.rs
s/mask |= u64/mask = u64/
