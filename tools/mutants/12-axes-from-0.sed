# Request 12: the chosen axis taken as numbered from 0.
# file src/count.rs
s/axis.checked_sub(1).and_then/Some(axis).and_then/
