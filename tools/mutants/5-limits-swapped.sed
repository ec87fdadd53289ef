# Request 5: each search with the limit of the other.
# file src/range.rs
s/search(set, sides, limits\.set)/search(set, sides, limits.difference)/
s/search(&outside, sides, limits\.difference)/search(\&outside, sides, limits.set)/
