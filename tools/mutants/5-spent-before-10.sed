# Request 5: spent before 10.
# file src/range.rs
s/^    let outside = difference(\(.*\))?;/    let outside = match difference(\1) {\
        Err(_) if matches!(search(set, sides, limits.set)?, Search::Spent(_)) => Set::empty(set.n),\
        found => found?,\
    };/
