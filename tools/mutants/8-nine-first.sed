# Request 8: 9 before the numbers of the first eight divisions.
# file src/states.rs
/^        let mut basic = BasicSet::default();/a\
        if divisions.len() > crate::model::MAX_DIVISIONS {\
            return Err(refusal::TOO_MANY_GIVEN);\
        }
