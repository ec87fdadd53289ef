# Request 9: no carry in a cut, where a candidate that is wide at 64 bits is kept untested.
# file src/algebra.rs
/pieces\.extend(kept_candidate/i\
            let mut candidate = working.clone();\
            candidate.rules.extend(tightened(\&opposite));\
            if crate::test::test_bounded(n, \&candidate, Some(200), [crate::test::BOUND_64; 2]).answer\
                == crate::test::Answer::Wide\
            {\
                pieces.push(candidate);\
                continue;\
            }
