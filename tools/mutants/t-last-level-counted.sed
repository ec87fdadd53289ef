# Request 9: only the pivots of the last level told, though the limit is one of both.
# file src/test.rs
s/pivots: steps\.pivots,/pivots: steps.pivots - steps.carried.unwrap_or(0),/
