# Request 8: going back forgets no mark.
# file src/states.rs
/^        self\.marks\.truncate(place + 1);/d
