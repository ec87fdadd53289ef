# Request 8: the bound for the row after its last replacement too.
# file src/states.rs
s/^    Some(draft\.settled())/    Some(draft.settled()).filter(|row| !row.is_beyond(BOUND_128))/
