# Request 12: 19 after 13.
# file src/count.rs
s/let axis = check_axis/check_limit(limit)?;\
    &/
