# Request 3: a rule that joins the working rules not tightened.
# file src/algebra.rs
s/Some(tight) => working\.rules\.push(tight),/Some(_) => working.rules.push(rule),/
