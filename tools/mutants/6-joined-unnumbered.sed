# Request 6: the number lost by a rule that joins the working rules of a cut.
# file src/algebra.rs
s/^            Some(tight) => working\.rules\.push(tight),/            Some(tight) => working.rules.push(Rule { number: 0, ..tight }),/
