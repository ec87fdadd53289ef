# Request 12: 12 for an upside-down box.
# file src/count.rs
s/^    check_limit(limit)?;/&\
    if sides.is_shut() {\
        return Err(refusal::COORDINATE);\
    }/
