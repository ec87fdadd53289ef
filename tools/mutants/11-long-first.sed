# Request 11: long before unbounded.
# file src/extreme.rs
/^        if stops\.is_empty() {/i\
        if self.steps.pivots == PIVOT_LIMIT {\
            return Some(Extreme::Long);\
        }
