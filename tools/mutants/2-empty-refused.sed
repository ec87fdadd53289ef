# Request 2: a list without points refused 16.
# file src/fleet.rs
s/if !points.remainder/if coordinates.is_empty() || !points.remainder/
