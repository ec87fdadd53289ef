# Request 6: every rule written as a `16` or `17`, one without a number with 0.
# file src/bytes.rs
s/(Kind::Equality, 0) => EQUALITY,/(Kind::Equality, 0) => NUMBERED_EQUALITY,/
s/(Kind::Inequality, 0) => INEQUALITY,/(Kind::Inequality, 0) => NUMBERED_INEQUALITY,/
s/if rule\.number != 0 {/if true {/
