# Request 8: 10 before 7 and 8.
# file src/states.rs
/^        check_rule(/i\
        if self.basic.rules.len() == MAX_RULES {\
            return Err(refusal::TOO_MANY_RESULTING);\
        }
