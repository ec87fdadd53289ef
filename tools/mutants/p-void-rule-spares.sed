# Request 3: a void rule of the second set that spares a candidate's 10, but no join's.
# file src/algebra.rs
/if working\.rules\.len() + further\.len() > MAX_RULES {/i\
    if all_tightened(further).is_none() {\
        return Ok(None);\
    }
