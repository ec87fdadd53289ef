# Request 9: the carry starts over with the first tableau, and the count runs on.
# file src/test.rs
/pub fn judge(&mut self)/a\
        let (begun, mut over) = (self.tableau.clone(), false);
/^            self\.exchange(row, column);/i\
            if self.carried.is_some() \&\& !over {\
                (self.tableau, over) = (begun.clone(), true);\
                continue;\
            }
