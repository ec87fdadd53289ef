# Request 8: rules tightened when they are added.
# file src/states.rs
/^    fn go_on(/a\
        let rule = \&crate::algebra::tightened(rule).unwrap_or(rule.clone());
