# Request 3: a cutter with a void rule left out, as it holds no integer point.
# file src/algebra.rs
/let (mut working, moved) = join(&basic, cutter)?;/i\
    if all_tightened(\&cutter.rules).is_none() {\
        return Ok(vec![basic]);\
    }
