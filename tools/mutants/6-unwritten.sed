# Request 6: the number not written.
# file src/bytes.rs
s/match (rule\.kind, rule\.number)/match (rule.kind, 0u16)/
s/if rule\.number != 0 {/if false {/
