# Request 6: 17 before 4.
# file src/bytes.rs
/^fn add_rule(/a\
    read_rule(command, body)?;
