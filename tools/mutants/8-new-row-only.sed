# Request 8: the bound for the new row alone.
# file src/draft.rs
s/self\.row\.is_beyond(bound) || replacing\.is_beyond(bound)/replacing.variable == variable \&\& self.row.is_beyond(bound)/
