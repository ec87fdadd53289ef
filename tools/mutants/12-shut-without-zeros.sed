# Request 12: an upside-down box has no counts of the chosen axis.
# file src/count.rs
s/Count::Whole(whole, each, 0)/Count::Whole(whole, Vec::new(), 0)/
