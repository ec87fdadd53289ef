# Request 5: rules for absent axes too.
# file src/range.rs
s/(0\.\.n)\.flat_map(both)/(0..MAX_AXES).flat_map(both)/
