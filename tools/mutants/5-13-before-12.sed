# Request 5: 13 before 12.
# file src/range.rs
s/^    check_box(set\.n, sides)?;/    check_limit(limits.set)?;\
    check_limit(limits.difference)?;\
&/
