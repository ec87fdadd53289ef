//! The rule's own number (document 02, request 6), once more: which rules the operations can make, and with which
//! numbers.

use crate::fractions::gcd;
use crate::sets::{Basic, Rule};
use std::collections::HashSet;

/// A rule wherever its divisions stand: number, whether it is an equality, constant, axes, divisions' coefficients.
type Shape = (i128, bool, i128, Vec<i128>, Vec<i128>);

/// The rules that a result may have.
#[derive(Default)]
pub struct Sources(HashSet<Shape>);

fn shape(rule: &Rule) -> Shape {
    let mut divisions: Vec<i128> = rule.places[8..].iter().copied().filter(|&k| k != 0).collect();
    divisions.sort_unstable();
    (rule.number, rule.equality, rule.constant, rule.places[..8].to_vec(), divisions)
}

/// sign · rule + constant; sign is 1 or -1.
fn changed(rule: &Rule, equality: bool, sign: i128, constant: i128) -> Rule {
    let places = rule.places.iter().map(|k| sign * k).collect();
    Rule { equality, number: rule.number, constant: sign * rule.constant + constant, places }
}

fn opposites(rule: &Rule) -> Vec<Rule> {
    let above = rule.equality.then(|| changed(rule, false, 1, -1));
    above.into_iter().chain([changed(rule, false, -1, -1)]).collect()
}

/// Nothing for a void equality.
fn tightened(rule: &Rule) -> Option<Rule> {
    let g = rule.places.iter().fold(0, |g, &k| gcd(g, k)).max(1);
    if rule.equality && rule.constant % g != 0 {
        return None;
    }
    let places = rule.places.iter().map(|k| k / g).collect();
    Some(Rule { equality: rule.equality, number: rule.number, constant: rule.constant.div_euclid(g), places })
}

fn rules(set: &[Basic]) -> impl Iterator<Item = &Rule> {
    set.iter().flat_map(|basic| &basic.rules)
}

impl Sources {
    /// Those of an operation on two sets; the second is that of a complement too, where the first has no rules.
    pub fn of(kind: &str, a: &[Basic], b: &[Basic]) -> Sources {
        let mut sources = Sources::default();
        let uncut = kind == "difference" && b.is_empty();
        if kind == "union" || uncut {
            sources.0.extend(rules(a).chain(rules(b)).map(shape));
            return sources;
        }
        let whole = rules(a).chain(rules(b)).filter_map(tightened);
        sources.0.extend(whole.map(|rule| shape(&rule)));
        if kind != "intersection" {
            let cut = rules(b).flat_map(opposites).filter_map(|rule| tightened(&rule));
            sources.0.extend(cut.map(|rule| shape(&rule)));
        }
        sources
    }

    /// Whether every rule of the result is one of them.
    pub fn hold(&self, found: &[Basic]) -> Result<(), String> {
        for (i, basic) in found.iter().enumerate() {
            for (j, rule) in basic.rules.iter().enumerate() {
                if !self.0.contains(&shape(rule)) {
                    let (i, j, number) = (i + 1, j + 1, rule.number);
                    return Err(format!("rule {j} of basic set {i}, number {number}, comes from none"));
                }
            }
        }
        Ok(())
    }
}

#[cfg(test)]
mod tests {
    use super::Sources;
    use crate::sets::{read, Set};
    use hexscript::tokens::{bytes, Names};

    fn set(text: &str) -> Set {
        read(&bytes(text, &Names::new()).expect("good tokens")).expect("a set")
    }

    /// x = 4 with number 9, cut from x >= 0 with number 2.
    #[test]
    fn a_number_is_kept_by_the_rule_and_both_opposites() {
        let a = set("11 17 u16:2 i32:0 i16:1 zeros:30");
        let b = set("11 16 u16:9 i32:-8 i16:2 zeros:30");
        let sources = Sources::of("difference", &a, &b);
        let good = |rule: &str| sources.hold(&set(&format!("11 {rule} zeros:30"))).is_ok();
        assert!(good("17 u16:2 i32:0 i16:1") && good("16 u16:9 i32:-4 i16:1"));
        assert!(good("17 u16:9 i32:-5 i16:1") && good("17 u16:9 i32:3 i16:-1"));
        assert!(!good("14 i32:0 i16:1") && !good("14 i32:-5 i16:1") && !good("17 u16:2 i32:3 i16:-1"));
        // The opposite of a rule of the first set, and a rule that is not tightened.
        assert!(!good("17 u16:2 i32:-1 i16:-1") && !good("16 u16:9 i32:-8 i16:2"));
        assert!(Sources::of("union", &a, &b).hold(&b).is_ok());
        assert!(Sources::of("intersection", &a, &b).hold(&b).is_err());
    }
}
