# Request 11: the lowest-numbered row that stops the column leaves, soonest or not.
# file src/extreme.rs
s/a\.compare(b)\.then(a\.variable\.cmp(&b\.variable))/a.variable.cmp(\&b.variable)/
