# Request 2: a part of a point at the end of the list left out.
# file src/fleet.rs
s/!points.remainder().is_empty() || //
