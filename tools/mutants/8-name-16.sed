# Request 8: a name 16.
# file src/states.rs
s/name > LAST_NAME {/name > LAST_NAME + 1 {/
