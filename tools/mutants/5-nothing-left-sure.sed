# Request 5: sure only where no piece is left, not where none of them has a point.
# file src/range.rs
s/^    let then = search(.*)?;/    let then = match search(\&outside, sides, limits.difference)? {\
        Search::None(tested) if !outside.basics.is_empty() => Search::At(sides.low[..set.n].to_vec(), tested),\
        found => found,\
    };/
