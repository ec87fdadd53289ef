# Request 8: a coefficient that waits not divided with the row.
# file src/draft.rs
/^        substitute(/i\
        let mut waiting: Vec<i128> = self.waiting().iter().map(|k| k * replacing.denominator).collect();\
        waiting[variable] = 0;
/^        substitute(/a\
        self.row.entries.truncate(self.columns);\
        self.row.entries.extend(waiting);
