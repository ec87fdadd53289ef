# Request 5: never for a low over its high, as the search finds none there.
# file src/range.rs
/^pub fn check_box/,/^}/s/if sides\.is_shut()/if false/
s/unreachable!("no low is over its high: the box has a point")/Range::Never/
