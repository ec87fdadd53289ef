# Request 5: sure, though the search of the set ran out.
# file src/range.rs
/(Search::Spent(_), _) => Range::Spent(Searched::Set),/i\
        (Search::Spent(_), Search::None(_)) => Range::Sure,
