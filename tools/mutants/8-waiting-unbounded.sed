# Request 8: a coefficient that waits left out of the bound.
# file src/draft.rs
s/self\.row\.is_beyond(bound) ||/self.clone().settled().is_beyond(bound) ||/
