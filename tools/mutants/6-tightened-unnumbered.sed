# Request 6: the number lost by a rule that is divided.
# file src/algebra.rs
/^    Some(Rule {/,/^    })/ s/number: rule\.number,/number: 0,/
