# Request 9: no carry in an intersection, where a candidate that is wide at 64 bits is kept untested.
# file src/algebra.rs
/if let Some(kept) = kept_candidate(a\.n, &joined, &moved, watch)? {/i\
            let mut candidate = joined.clone();\
            candidate.rules.extend(moved.iter().filter_map(tightened));\
            if crate::test::test_bounded(a.n, \&candidate, Some(200), [crate::test::BOUND_64; 2]).answer\
                == crate::test::Answer::Wide\
            {\
                push_result(\&mut result, candidate)?;\
                continue;\
            }
