# Request 7: a shut window before 12.
# file src/ask.rs
/^    check_corners(set.n, sides)?;/i\
    if sides.is_shut() {\
        return Ok(Search::None(0));\
    }
