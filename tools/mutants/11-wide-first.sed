# Request 11: wide before unbounded.
# file src/extreme.rs
/^        if stops\.is_empty() {/i\
        if self.steps.tableau.is_wide(entering.column, BOUND_128) {\
            return Some(Extreme::Wide);\
        }
