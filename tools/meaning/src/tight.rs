//! Tightening (document 02, request 3), written once more: what is said of points with fractions is said of tightened
//! rules.

use crate::fractions::gcd;
use crate::sets::Basic;
use generate::model::{self, Rule};

/// A rule divided by the common divisor of its coefficients, its constant rounded down; nothing for a void equality,
/// which a point with fractions may meet but no integer point.
fn tightened_rule(rule: &Rule) -> Option<Rule> {
    let coefficients = rule.axes.iter().chain(&rule.divisions);
    // 0 where all are 0: such a rule remains.
    let g = coefficients.fold(0, |g, &k| gcd(g, i128::from(k))).max(1) as i32;
    if rule.equality && rule.constant % g != 0 {
        return None;
    }
    let divided = |k: i16| (i32::from(k) / g) as i16;
    // g is positive, so this rounds towards minus infinity.
    let constant = rule.constant.div_euclid(g);
    Some(Rule { constant, axes: rule.axes.map(divided), divisions: rule.divisions.map(divided), ..*rule })
}

/// The basic set with its rules tightened; nothing where one of them is void.
pub fn tightened(basic: &model::Basic) -> Option<model::Basic> {
    let rules = basic.rules.iter().map(tightened_rule).collect::<Option<_>>()?;
    Some(model::Basic { divisions: basic.divisions.clone(), rules })
}

/// Whether tightening would leave every rule as it is.
pub fn is_tight(basic: &Basic) -> bool {
    basic.rules.iter().all(|rule| rule.places.iter().fold(0, |g, &k| gcd(g, k)) <= 1)
}

#[cfg(test)]
mod tests {
    use super::{is_tight, tightened, tightened_rule};
    use crate::sets::read;
    use generate::model::{encode, Basic, Rule};

    fn rule(equality: bool, constant: i32, axis: i16, division: i16) -> Rule {
        let (mut axes, mut divisions) = ([0; 8], [0; 8]);
        (axes[0], divisions[7]) = (axis, division);
        Rule { equality, number: 0, constant, axes, divisions }
    }

    #[test]
    fn rules_are_divided_rounded_or_void() {
        let tight = |rule| tightened_rule(&rule).map(|t| (t.constant, t.axes[0], t.divisions[7]));
        assert_eq!(tight(rule(false, 1, 2, 0)), Some((0, 1, 0)));
        assert_eq!(tight(rule(false, -1, 2, -4)), Some((-1, 1, -2)));
        assert_eq!(tight(rule(false, i32::MIN, 3, 0)), Some((-715_827_883, 1, 0)));
        assert_eq!(tight(rule(true, -6, 4, 6)), Some((-3, 2, 3)));
        assert_eq!(tight(rule(true, -1, 2, 0)), None);
        assert_eq!(tight(rule(true, 2, 4, 0)), None);
        assert_eq!(tight(rule(true, 5, 0, 0)), Some((5, 0, 0)));
        assert_eq!(tight(rule(false, 4, 3, 2)), Some((4, 3, 2)));
    }

    #[test]
    fn a_tightened_basic_set_is_tight() {
        let basic = Basic { divisions: Vec::new(), rules: vec![rule(false, 3, 6, 0), rule(true, 4, 2, 0)] };
        let tight = tightened(&basic).expect("no void rule");
        let told = |basic: &Basic| is_tight(&read(&encode(std::slice::from_ref(basic))).expect("a set")[0]);
        assert!(!told(&basic) && told(&tight));
        let void = Basic { rules: vec![rule(false, 0, 1, 0), rule(true, 1, 2, 0)], ..basic };
        assert!(tightened(&void).is_none());
    }
}
