# Request 7: a shut window is still 12.
# file src/ask.rs
s/return Ok(Search::None(0));/return Err(refusal::COORDINATE);/
