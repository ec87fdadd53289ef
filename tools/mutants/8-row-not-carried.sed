# Request 8: a new rule's row beyond the bound of 64 bits is wide.
# file src/states.rs
s/^        if steps\.is_wide(/        if draft.is_beyond(\&steps.tableau, variable, BOUND_64) || steps.is_wide(/
