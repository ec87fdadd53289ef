# Request 3: a candidate written tightened, but tested with its new rules as given.
# file src/algebra.rs
/let outcome = test(n, &candidate);/c\
    let mut given = working.clone();\
    given.rules.extend(further.to_vec());\
    let outcome = test(n, \&given);
