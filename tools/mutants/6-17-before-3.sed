# Request 6: 17 before 3, as soon as the number is there.
# file src/bytes.rs
/^    let (&command, rest) = bytes\.split_first()/a\
    refuse_if(command >= NUMBERED_EQUALITY \&\& rest.starts_with(\&[0, 0]), refusal::NO_NUMBER)?;
