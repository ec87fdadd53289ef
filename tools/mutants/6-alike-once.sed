# Request 6: of rules that differ in their numbers alone only the first kept.
# file src/algebra.rs
/^    candidate\.rules\.extend(tight);/c\
    for rule in tight {\
        let alike = |other: \&Rule| Rule { number: rule.number, ..other.clone() } == rule;\
        if rule.number == 0 || !candidate.rules.iter().any(alike) {\
            candidate.rules.push(rule);\
        }\
    }
