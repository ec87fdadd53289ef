# Request 6: 17 where the low byte of the number is 0.
# file src/bytes.rs
s/refuse_if(numbered && number == 0,/refuse_if(numbered \&\& number % 256 == 0,/
