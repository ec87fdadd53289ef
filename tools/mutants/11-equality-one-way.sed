# Request 11: an equality row stops the column only where it would fall.
# file src/extreme.rs
s/Nature::Zero if slope != 0/Nature::Zero if slope < 0/
