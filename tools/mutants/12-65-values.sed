# Request 12: 65 values of the chosen axis are counted.
# file src/count.rs
s/MOST_VALUES: u64 = 64/MOST_VALUES: u64 = 65/
