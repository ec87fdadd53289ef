# Request 11: the highest-numbered improving column enters.
# file src/extreme.rs
s/\.min_by_key(|entering|/.max_by_key(|entering|/
