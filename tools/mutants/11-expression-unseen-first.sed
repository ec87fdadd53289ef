# Request 11: the expression's row left out of the number test of the first half.
# file src/tableau.rs
/^    \/\/\/ Step 4; the exchanged row/i\
    fn is_unseen(\&self, row: \&Row) -> bool {\
        let free = self.natures[row.variable] == Nature::Free;\
        free \&\& row.variable >= self.columns.len() \&\& self.lowest_violated_row().is_some()\
    }\

s/any(|row| row\.is_beyond(bound))/any(|row| !self.is_unseen(row) \&\& row.is_beyond(bound))/
