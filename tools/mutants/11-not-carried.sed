# Request 11: wide at 64 bits in the second half is wide.
# file src/extreme.rs
/^        match self\.steps\.hindered(entering\.column) {/i\
        if self.steps.carried.is_none() \&\& self.steps.tableau.is_wide(entering.column, BOUND_64) {\
            return Some(Extreme::Wide);\
        }
