# Request 6: a `16` with number 0 accepted, a `17` not.
# file src/bytes.rs
s/refuse_if(numbered && number == 0,/refuse_if(command == NUMBERED_INEQUALITY \&\& number == 0,/
