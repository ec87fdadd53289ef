# Request 5: 13 before a low over its high.
# file src/range.rs
s/^    check_box(set\.n, sides)?;/    check_corners(set.n, sides)?;/
s/^    check_limit(limits\.difference)?;/&\
    check_box(set.n, sides)?;/
