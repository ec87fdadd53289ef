# Request 5: the set searched again in the place of the difference.
# file src/range.rs
s/search(&outside, sides, limits\.difference)/search(set, sides, limits.difference)/
