//! What tightening (document 02, request 3) does in an operation, told by `second`'s own joins, cuts and tests.

use crate::histogram::{bump, Counts};
use second::algebra::{cut, intersection, join, opposites, tightened, unwatched};
use second::model::{MAX_BASIC_SETS, MAX_RULES};
use second::test::test;
use second::{BasicSet, Outcome, Rule, Set};

/// The events that have to occur. A void rule is last or not last among those of its basic set; 10 comes by the join of
/// divisions or by the number of rules.
pub const EVENTS: [&str; 20] = [
    "rule divided",
    "rule rounded down",
    "rule without coefficients",
    "void first, last",
    "void first, not last",
    "void second, last",
    "void second, not last",
    "void ends the cut, last",
    "void ends the cut, not last",
    "void passed over, later piece",
    "dropped when tightened",
    "10 spared by first of pair, join",
    "10 spared by first of pair, rules",
    "10 spared by first of cut, join",
    "10 spared by first of cut, rules",
    "10 spared by ended cut",
    "10 despite void second, join",
    "10 despite void second, rules",
    "10 despite void cutter, join",
    "10 despite void cutter, rules",
];

fn is_void(rule: &Rule) -> bool {
    tightened(rule).is_none()
}

/// Where the first void rule stands; nothing without one.
fn void_place(rules: &[Rule]) -> Option<&'static str> {
    let at = rules.iter().position(is_void)?;
    Some(if at + 1 == rules.len() { "last" } else { "not last" })
}

/// Which of 10's limits is passed by joining the two, with so many rules beside those of the first.
fn ten(first: &BasicSet, second: &BasicSet, rules: usize) -> Option<&'static str> {
    if join(first, second).is_err() {
        return Some("join");
    }
    (first.rules.len() + rules > MAX_RULES).then_some("rules")
}

/// Rules that are divided, that are rounded as well, and that have nothing to be divided.
fn of_rules(sets: [&Set; 2], counts: &mut Counts) {
    for rule in sets.into_iter().flat_map(|set| &set.basics).flat_map(|basic| &basic.rules) {
        let coefficients = |rule: &Rule| [rule.axes, rule.divs].concat();
        let Some(tight) = tightened(rule) else { continue };
        let pairs = coefficients(rule).into_iter().zip(coefficients(&tight));
        match pairs.filter(|(given, _)| *given != 0).map(|(given, tight)| given / tight).next() {
            None => bump(counts, "rule without coefficients"),
            Some(1) => {}
            Some(g) if tight.constant * g == rule.constant => bump(counts, "rule divided"),
            Some(_) => bump(counts, "rule rounded down"),
        }
    }
}

/// Whether the pair's candidate has a point with fractions, or may have, only as long as its rules are not tightened.
fn dropped_when_tightened(n: usize, first: &BasicSet, second: &BasicSet) -> bool {
    let Ok((mut given, moved)) = join(first, second) else { return false };
    given.rules.extend(moved);
    let tight: Vec<Rule> = given.rules.iter().filter_map(tightened).collect();
    let divisions = given.divisions.clone();
    tight != given.rules && test(n, &given).kept() && !test(n, &BasicSet { divisions, rules: tight }).kept()
}

pub fn of_intersection(a: &Set, b: &Set, counts: &mut Counts) {
    of_rules([a, b], counts);
    let refused = intersection(a, b, &mut unwatched).is_err();
    for (first, second) in a.basics.iter().flat_map(|first| b.basics.iter().map(move |second| (first, second))) {
        let limit = ten(first, second, second.rules.len());
        match (void_place(&first.rules), void_place(&second.rules), limit) {
            (Some(place), _, None) => bump(counts, &format!("void first, {place}")),
            (Some(_), _, Some(limit)) if !refused => bump(counts, &format!("10 spared by first of pair, {limit}")),
            (None, Some(place), None) => bump(counts, &format!("void second, {place}")),
            (None, Some(_), Some(limit)) if refused => {
                bump(counts, &format!("10 despite void second, {limit}"));
                return;
            }
            (None, None, Some(_)) => return,
            (None, None, None) if dropped_when_tightened(a.n, first, second) => bump(counts, "dropped when tightened"),
            _ => {}
        }
    }
}

/// Goes the way of `second::algebra::difference`, up to its refusal.
pub fn of_difference(a: &Set, b: &Set, counts: &mut Counts) {
    if b.basics.is_empty() {
        return;
    }
    of_rules([a, b], counts);
    let mut waiting: Vec<(BasicSet, usize)> = a.basics.iter().rev().map(|basic| (basic.clone(), 0)).collect();
    let mut written = 0;
    while let Some((piece, met)) = waiting.pop() {
        let Some(cutter) = b.basics.get(met) else {
            written += 1;
            if written > MAX_BASIC_SETS {
                return;
            }
            continue;
        };
        let Some(pieces) = of_cut(a.n, &piece, cutter, counts) else { return };
        waiting.extend(pieces.into_iter().rev().map(|piece| (piece, met + 1)));
    }
}

/// The pieces of one cut; nothing where it is refused.
fn of_cut(n: usize, piece: &BasicSet, cutter: &BasicSet, counts: &mut Counts) -> Option<Vec<BasicSet>> {
    let mut tested = Vec::new();
    let mut watch = |candidate: &BasicSet, outcome: Outcome| tested.push((candidate.rules.len(), outcome.kept()));
    let pieces = cut(n, piece, cutter, &mut watch).ok();
    let limit = ten(piece, cutter, cutter.rules.len().min(1));
    match (void_place(&piece.rules), limit) {
        (Some(place), None) => bump(counts, &format!("void first, {place}")),
        (Some(_), Some(limit)) if pieces.is_some() => bump(counts, &format!("10 spared by first of cut, {limit}")),
        (None, Some("join")) if cutter.rules.iter().any(is_void) && pieces.is_none() => {
            bump(counts, "10 despite void cutter, join");
        }
        (None, _) => of_cutter(&cutter.rules, &tested, pieces.is_none(), counts),
        _ => {}
    }
    pieces
}

/// Goes through a cutter's rules by the candidates that were tested, each with its number of rules and whether it was
/// kept: too few of a rule mean a 10, none behind it, and no 10, that the cut has ended.
fn of_cutter(rules: &[Rule], tested: &[(usize, bool)], refused: bool, counts: &mut Counts) {
    let mut rest = tested;
    for (at, rule) in rules.iter().enumerate() {
        let due = opposites(rule).len();
        let (own, behind) = rest.split_at(due.min(rest.len()));
        rest = behind;
        let last = at + 1 == rules.len();
        match (is_void(rule), own.len() == due, own.iter().any(|(_, kept)| *kept)) {
            (true, false, _) if refused => return bump(counts, "10 despite void cutter, rules"),
            (true, true, true) if behind.is_empty() && !refused => {
                bump(counts, if last { "void ends the cut, last" } else { "void ends the cut, not last" });
                if !last && own[0].0 == MAX_RULES {
                    bump(counts, "10 spared by ended cut");
                }
                return;
            }
            (true, true, false) if behind.iter().any(|(_, kept)| *kept) => {
                bump(counts, "void passed over, later piece");
            }
            (_, false, _) => return,
            _ => {}
        }
    }
}
