# Request 6: 48 rules with numbers beside 48 without.
# file src/bytes.rs
s/^    refuse_if(basic\.rules\.len() == MAX_RULES, refusal::TOO_MANY_GIVEN)?;/    let alike = |rule: \&\&Rule| (rule.number == 0) == (command < NUMBERED_EQUALITY);\n    refuse_if(basic.rules.iter().filter(alike).count() == MAX_RULES, refusal::TOO_MANY_GIVEN)?;/
