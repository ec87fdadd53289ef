# Request 12: 19 of the whole count too, for a first side of over 64 values.
# file src/count.rs
/^pub fn count(/,/^}/s/check_limit/check_axis(set.n, sides, 1)?;\
    check_limit/
