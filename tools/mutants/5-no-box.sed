# Request 5: the complement of the set in the place of the difference.
# file src/range.rs
s/difference(&box_set(set\.n, sides), set,/difference(\&Set::everything(set.n), set,/
