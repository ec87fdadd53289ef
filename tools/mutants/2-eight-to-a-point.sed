# Request 2: eight numbers to a point, however many axes there are.
# file src/fleet.rs
s/chunks_exact(n)/chunks_exact(MAX_AXES)/
