# Request 8: the result of a replacement not reduced.
# file src/draft.rs
/^        substitute(/i\
        let denominator = self.row.denominator * replacing.denominator;
/^        substitute(/a\
        let divisor = denominator / self.row.denominator;\
        self.row.denominator = denominator;\
        self.row.constant *= divisor;\
        self.row.entries.iter_mut().for_each(|entry| *entry *= divisor);
