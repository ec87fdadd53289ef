# Request 6: 17 before 9.
# file src/bytes.rs
/^    refuse_if(basic\.rules\.len() == MAX_RULES, /i\
    read_rule(command, body)?;
