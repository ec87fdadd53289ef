# Request 4: the rows built before the carry forgotten.
# file src/test.rs
/self\.carried = Some(self\.pivots);/a\
            self.built = 0;
