# Request 6: a division behind numbered rules accepted.
# file src/bytes.rs
s/refuse_if(!basic\.rules\.is_empty(), refusal::DIVISION_AFTER_RULE)/refuse_if(basic.rules.iter().any(|rule| rule.number == 0), refusal::DIVISION_AFTER_RULE)/
