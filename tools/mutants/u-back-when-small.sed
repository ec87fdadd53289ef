# Request 9: back to 64 bits once all numbers are small again.
# file src/test.rs
s/^    pub tableau: Tableau,/&\n    back: bool,/
s/carried: None, limit, bounds }/carried: None, limit, bounds, back: false }/
/^        self\.carried\.is_some() && beyond/i\
        self.back |= self.carried.is_some() \&\& self.tableau.rows.iter().all(|row| !row.is_beyond(first));
s/beyond(&self\.tableau, wider)/beyond(\&self.tableau, if self.back { first } else { wider })/
