# Request 11: the number test of the second half over every row, touched or not.
# file src/extreme.rs
/^        match self\.steps\.hindered(entering\.column) {/i\
        if self.steps.tableau.rows.iter().any(|row| row.is_beyond(BOUND_128)) {\
            return Some(Extreme::Wide);\
        }
