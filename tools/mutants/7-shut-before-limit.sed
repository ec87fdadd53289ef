# Request 7: a shut window before 13.
# file src/ask.rs
/^    check_corners(set.n, sides)?;/a\
    if sides.is_shut() {\
        return Ok(Search::None(0));\
    }
