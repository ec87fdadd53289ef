# (b) Division towards zero.
# file src/exact.rs
s/if numerator % d < 0 {/if numerator % d < 0 \&\& false {/
