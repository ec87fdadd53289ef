# Request 3: a cut that ends at a void equality, but looks at the rules behind it for 10.
# file src/algebra.rs
/^pub fn cut(/,/^}/{
/let mut pieces = Vec::new();/a\
    let mut ended = None;
s/Ok(pieces)/Ok(ended.unwrap_or(pieces))/
/None => break,/c\
            None => {\
                ended = ended.or(Some(pieces.clone()));\
                working.rules.push(rule);\
            }
}
