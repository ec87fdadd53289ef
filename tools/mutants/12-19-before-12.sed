# Request 12: 19 before 12.
# file src/count.rs
/^pub fn counts(/,/^}/s/check_corners/check_axis(set.n, sides, axis)?;\
    check_corners/
