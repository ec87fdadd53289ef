# Request 6: 17 after 7 and 8.
# file src/bytes.rs
s/^    refuse_if(numbered && number == 0, refusal::NO_NUMBER)?;//
/^    check_rule(n, basic, &rule)?;/a\
    refuse_if(command >= NUMBERED_EQUALITY \&\& rule.number == 0, refusal::NO_NUMBER)?;
