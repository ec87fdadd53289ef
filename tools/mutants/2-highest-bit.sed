# Request 2: point 1 in the highest bit.
# file src/fleet.rs
s/<< place;/<< (63 - place);/
