# Request 5: sure and never for each other.
# file src/range.rs
s/(Search::At(\.\.), Search::None(_)) => Range::Sure/(Search::At(..), Search::None(_)) => Range::Never/
s/(Search::None(_), Search::At(\.\.)) => Range::Never/(Search::None(_), Search::At(..)) => Range::Sure/
