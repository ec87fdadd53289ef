# Request 2: how many points there are, not how many may run.
# file src/fleet.rs
s/count: mask.count_ones()/count: (coordinates.len() \/ set.n) as u32/
