# Request 3: an opposite not tightened.
# file src/algebra.rs
/pieces\.extend(kept_candidate/c\
            let mut candidate = working.clone();\
            candidate.rules.push(opposite);\
            pieces.extend(kept_candidate(n, \&candidate, \&[], watch)?);
