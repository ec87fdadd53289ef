# Request 2: 16 before the set's own numbers.
# file src/calls.rs
/^    let coordinates = fields.coordinates()?;/a\
    if n > 0 \&\& crate::fleet::points(usize::from(n), \&coordinates).is_err() {\
        return Some(format!("refused {}", refusal::FLEET_LIST));\
    }
