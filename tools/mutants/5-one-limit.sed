# Request 5: both searches within one limit.
# file src/range.rs
/let then = search/i\
    let used = match first {\
        Search::At(_, tested) | Search::None(tested) | Search::Spent(tested) => tested,\
    };
s/search(&outside, sides, limits\.difference)/search(\&outside, sides, limits.difference.saturating_sub(used).max(1))/
