# Request 11: wide before long.
# file src/extreme.rs
/^        match self\.steps\.hindered(entering\.column) {/i\
        if self.steps.tableau.is_wide(entering.column, BOUND_128) {\
            return Some(Extreme::Wide);\
        }
