# Request 9: the carry restarts the count.
# file src/test.rs
/self\.carried = Some(self\.pivots);/a\
            self.pivots = 0;
