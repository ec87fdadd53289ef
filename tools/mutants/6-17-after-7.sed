# Request 6: 17 after 7, before 8.
# file src/bytes.rs
s/^    refuse_if(numbered && number == 0, refusal::NO_NUMBER)?;//
/^    check_rule(n, basic, &rule)?;/i\
    let checked = check_rule(n, basic, \&rule);\
    refuse_if(checked == Err(refusal::NUMBER_RANGE), refusal::NUMBER_RANGE)?;\
    refuse_if(command >= NUMBERED_EQUALITY \&\& rule.number == 0, refusal::NO_NUMBER)?;
