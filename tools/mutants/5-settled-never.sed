# Request 5: never, though the search of the difference ran out.
# file src/range.rs
/(_, Search::Spent(_)) => Range::Spent(Searched::Difference),/i\
        (Search::None(_), Search::Spent(_)) => Range::Never,
