# Request 5: 10 before 13 of the second limit.
# file src/range.rs
/^    check_limit(limits\.difference)?;/d
