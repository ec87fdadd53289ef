# Request 3: a void basic set of the second set that spares a 10.
# file src/algebra.rs
/let (joined, moved) = join(&first, second)?;/i\
            if all_tightened(\&second.rules).is_none() {\
                continue;\
            }
