# (e) The tally at the limit: spent one prefix too late.
# file src/ask.rs
s/if tested == limit {/if tested > limit {/
