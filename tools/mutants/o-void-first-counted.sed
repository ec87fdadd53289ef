# Request 3: a void basic set of the first set that gives 10, as its rules are counted before they are tightened.
# file src/algebra.rs
/let Some(basic) = first_tightened(basic)/i\
    if basic.rules.len() == MAX_RULES \&\& !cutter.rules.is_empty() {\
        return Err(refusal::TOO_MANY_RESULTING);\
    }
