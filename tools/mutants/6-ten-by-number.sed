# Request 6: a numbered rule counts twice to the 48 of a candidate.
# file src/algebra.rs
s/^    if working\.rules\.len() + further\.len() > MAX_RULES {/    let numbered = further.iter().filter(|rule| rule.number != 0).count();\n    if working.rules.len() + further.len() + numbered > MAX_RULES {/
