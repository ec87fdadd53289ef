# Request 8: a row beyond the bound leaves the word as it was.
# file src/states.rs
/^        self\.says = Answer::Wide;/d
