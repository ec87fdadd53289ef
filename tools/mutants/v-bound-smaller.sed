# Request 9: 2^63 - 1 beyond the bound of 128 bits.
# file src/test.rs
s/9_223_372_036_854_775_807/9_223_372_036_854_775_806/
