# Request 3: a cut that goes on behind a void equality that joined.
# file src/algebra.rs
s/None => break,/None => working.rules.push(rule),/
