# (d) 11 given before 10: the operation stops where the result no longer fits its 8,000 bytes.
# file src/algebra.rs
/^fn push_result/a\
    let mut longer = result.clone();\
    longer.basics.push(basic.clone());\
    if crate::bytes::encoded_length(\&longer) > 8_000 {\
        return Err(refusal::TABLE_FULL);\
    }
