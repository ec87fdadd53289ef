# Request 8: a row beyond the bound entered.
# file src/states.rs
s/^            return None;/            \/\/ goes on/
