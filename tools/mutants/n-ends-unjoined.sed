# Request 3: a cut that ends at a void equality that did not join.
# file src/algebra.rs
s/if pieces\.len() == before {/if pieces.len() == before \&\& tightened(\&rule).is_some() {/
