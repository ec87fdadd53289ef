# (e) The tally at the limit: spent one prefix too early.
# file src/ask.rs
s/if tested == limit {/if tested + 1 == limit {/
