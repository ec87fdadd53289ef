# Request 3: an equality with all coefficients 0, such as 0 = 5, taken as void.
# file src/algebra.rs
/let g = common_divisor(rule);/a\
    if g == 0 \&\& rule.kind == Kind::Equality \&\& rule.constant != 0 {\
        return None;\
    }
