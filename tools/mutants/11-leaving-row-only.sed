# Request 11: the number test after the leaving row is chosen, over that row alone.
# file src/extreme.rs
/^        match self\.steps\.hindered(entering\.column) {/i\
        let row = leaving(\&stops);\
        if self.steps.pivots < PIVOT_LIMIT \&\& !self.steps.tableau.rows[row].is_beyond(BOUND_128) {\
            self.steps.exchange(row, entering.column);\
            return None;\
        }
