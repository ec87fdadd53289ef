# Request 2: 12 before 16.
# file src/fleet.rs
/^    let mut mask = 0;/i\
    if coordinates.iter().any(|x| !(-1_048_576..=1_048_576).contains(x)) {\
        return Err(refusal::COORDINATE);\
    }
