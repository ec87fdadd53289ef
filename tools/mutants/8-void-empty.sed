# Request 8: an equality that no integer point can meet makes it empty.
# file src/states.rs
/^            self\.go_on(rule);/a\
            if crate::algebra::tightened(rule).is_none() {\
                self.says = Answer::Dropped;\
            }
