# Request 6: a `16` or `17` with number 0 accepted.
# file src/bytes.rs
s/^    refuse_if(numbered && number == 0, refusal::NO_NUMBER)?;//
