# Request 6: any constant of a numbered equality.
# file src/bytes.rs
s/let low = rule\.kind == Kind::Equality && /&rule.number == 0 \&\& /
