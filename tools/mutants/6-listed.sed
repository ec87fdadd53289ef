# Request 6: listings show the number.
# file src/listing.rs
s/let head = format!("{word} {}", rule\.constant);/let head = if rule.number == 0 { format!("{word} {}", rule.constant) } else { format!("rule {} {word} {}", rule.number, rule.constant) };/
