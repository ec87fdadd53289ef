# Request 11: of the rows that stop the column soonest, the highest-numbered leaves.
# file src/extreme.rs
s/then(a\.variable\.cmp(&b\.variable))/then(b.variable.cmp(\&a.variable))/
