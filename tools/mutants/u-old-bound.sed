# Request 9: the bound of 64 bits tested after the carry too.
# file src/test.rs
s/beyond(&self\.tableau, wider)/beyond(\&self.tableau, first.min(wider))/
