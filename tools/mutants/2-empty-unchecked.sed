# Request 2: a list without points answered before the set is checked.
# file src/calls.rs
/^    let coordinates = fields.coordinates()?;/a\
    if coordinates.is_empty() {\
        return Some("0 0".to_string());\
    }
