# Request 6: the second set's numbers lost in a union.
# file src/algebra.rs
/^pub fn union(/,/^}/ {
    s/^    let mut result = Set::empty(a\.n);/&\n    let mut b = b.clone();\n    b.basics.iter_mut().flat_map(|basic| \&mut basic.rules).for_each(|rule| rule.number = 0);/
}
