# Request 6: the number lost by a rule that a join moves.
# file src/algebra.rs
s/^    moved\.divs = \[0; MAX_DIVISIONS\];/&\n    moved.number = 0;/
