# Request 7: a shut window with a tally of 1.
# file src/ask.rs
s/return Ok(Search::None(0));/return Ok(Search::None(1));/
