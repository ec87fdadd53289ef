# Request 6: the number signed, those over 32,767 outside its range.
# file src/bytes.rs
/^    refuse_if(numbered && number == 0,/a\
    refuse_if(number > 32_767, refusal::NUMBER_RANGE)?;
