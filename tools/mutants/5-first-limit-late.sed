# Request 5: 10 before 13 of the first limit.
# file src/range.rs
/^    check_limit(limits\.set)?;/d
