# Request 6: parts counted with 37 bytes to every rule.
# file src/bytes.rs
s/^    encode_basic(basic)\.len()/    encode_basic(basic).len() - 2 * basic.rules.iter().filter(|rule| rule.number != 0).count()/
