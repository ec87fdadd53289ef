# Request 9: back to 64 bits after the pivot that was stopped there.
# file src/test.rs
s/beyond(&self\.tableau, wider)/beyond(\&self.tableau, if self.carried == Some(self.pivots) { wider } else { first })/
