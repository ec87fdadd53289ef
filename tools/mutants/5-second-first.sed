# Request 5: the search of the difference named where both run out.
# file src/range.rs
/(Search::Spent(_), _) => Range::Spent(Searched::Set),/i\
        (Search::Spent(_), Search::Spent(_)) => Range::Spent(Searched::Difference),
