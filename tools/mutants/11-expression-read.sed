# Request 11: 7 of the expression where there is no such basic set.
# file src/extreme.rs
/^    let Some(basic) = set\.basic(k)/i\
    if expression.axes.iter().chain(\&expression.divs).any(|k| k.abs() > 32_767) {\
        return Err(crate::refusal::NUMBER_RANGE);\
    }
