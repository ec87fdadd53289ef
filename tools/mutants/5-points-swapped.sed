# Request 5: the point outside the set before the one in it.
# file src/range.rs
s/Range::Depends(inside, outside),/Range::Depends(outside, inside),/
