# Request 4: the exchanged row not counted.
# file src/tableau.rs
s/let mut built = 1;/let mut built = 0;/
