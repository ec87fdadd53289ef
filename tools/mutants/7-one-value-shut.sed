# Request 7: a side of one value taken as shut.
# file src/ask.rs
s/self.low\[i\] > self.high\[i\]/self.low[i] >= self.high[i] \&\& i == 0/
