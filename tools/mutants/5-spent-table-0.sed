# Request 5: no difference in the table where a search ran out.
# file src/range.rs
s/^    Ok((told(first, then), outside))/    let told = told(first, then);\
    let left = if matches!(told, Range::Spent(_)) { Set::empty(set.n) } else { outside };\
    Ok((told, left))/
