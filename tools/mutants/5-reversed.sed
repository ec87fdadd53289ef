# Request 5: the difference of the set and the box.
# file src/range.rs
s/difference(&box_set(set\.n, sides), set,/difference(set, \&box_set(set.n, sides),/
