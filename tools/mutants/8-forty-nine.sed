# Request 8: a 49th rule allowed.
# file src/states.rs
s/self\.basic\.rules\.len() == MAX_RULES {/self.basic.rules.len() == MAX_RULES + 1 {/
