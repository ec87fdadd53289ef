# Request 11: rules tightened before the value is sought.
# file src/extreme.rs
/^        let mut tableau = Tableau::new(n, basic);/i\
        let rules = basic.rules.iter().map(|rule| crate::algebra::tightened(rule).unwrap_or(rule.clone())).collect();\
        let basic = \&BasicSet { divisions: basic.divisions.clone(), rules };
