# Request 11: an equality row never stops the column.
# file src/extreme.rs
/Nature::Zero if slope != 0/d
