# Request 5: a low over its high taken the other way round.
# file src/range.rs
/^pub fn check_box/,/^}/s/if sides\.is_shut()/if false/
/^pub fn range(/a\
    let sides = \&Sides {\
        low: std::array::from_fn(|i| sides.low[i].min(sides.high[i])),\
        high: std::array::from_fn(|i| sides.low[i].max(sides.high[i])),\
    };
