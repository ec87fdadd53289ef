# Request 11: the expression's 8 before its 7.
# file src/extreme.rs
/^    check_coefficients(set\.n, basic, expression)?;/i\
    if expression.axes[set.n..].iter().any(|\&k| k != 0) {\
        return Err(crate::refusal::ABSENT_PLACE);\
    }
