//! "Cutting rules": union, intersection, difference, complement, with rules
//! tightened by request 3, "Half slots".

use crate::exact::gcd;
use crate::model::{
    BasicSet, Kind, Rule, Set, MAX_BASIC_SETS, MAX_DIVISIONS, MAX_RULES,
};
use crate::refusal;
use crate::test::{test, Outcome};

/// Is shown every candidate tested, with its answer, in the order of testing.
pub type Watch<'a> = dyn FnMut(&BasicSet, Outcome) + 'a;

/// A watch for those who need none.
pub fn unwatched(_: &BasicSet, _: Outcome) {}

/// The opposites of a rule, in order; they "keep their number" (request 6).
/// Constants stay within 32 bits, as an equality's is at least −2,147,483,647.
pub fn opposites(rule: &Rule) -> Vec<Rule> {
    let below = Rule {
        kind: Kind::Inequality,
        number: rule.number,
        constant: -rule.constant - 1,
        axes: rule.axes.map(|k| -k),
        divs: rule.divs.map(|k| -k),
    };
    match rule.kind {
        Kind::Inequality => vec![below],
        Kind::Equality => {
            let above = Rule {
                kind: Kind::Inequality,
                constant: rule.constant - 1,
                ..rule.clone()
            };
            vec![above, below]
        }
    }
}

/// A's divisions with B's joined to them, and B's rules moved accordingly.
/// A join over 8 divisions is refused.
pub fn join(a: &BasicSet, b: &BasicSet) -> Result<(BasicSet, Vec<Rule>), u8> {
    let mut joined = a.clone();
    let mut taken = vec![false; a.divisions.len()];
    let mut places = Vec::new();
    for division in &b.divisions {
        // Only A's own divisions can be shared, each with one of B's.
        let shared = (0..a.divisions.len())
            .find(|&i| !taken[i] && a.divisions[i] == *division);
        match shared {
            Some(i) => {
                taken[i] = true;
                places.push(i);
            }
            None => {
                places.push(joined.divisions.len());
                joined.divisions.push(division.clone());
            }
        }
    }
    if joined.divisions.len() > MAX_DIVISIONS {
        return Err(refusal::TOO_MANY_RESULTING);
    }
    let moved = b.rules.iter().map(|rule| move_rule(rule, &places)).collect();
    Ok((joined, moved))
}

/// It is the same rule, so it keeps its number.
fn move_rule(rule: &Rule, places: &[usize]) -> Rule {
    let mut moved = rule.clone();
    moved.divs = [0; MAX_DIVISIONS];
    for (old, &new) in places.iter().enumerate() {
        moved.divs[new] = rule.divs[old];
    }
    moved
}

/// "the common divisor of its coefficients", of axes and divisions alike; 0
/// where all are 0.
fn common_divisor(rule: &Rule) -> i64 {
    let coefficients = rule.axes.iter().chain(&rule.divs);
    let divisor = coefficients.fold(0, |g, k| gcd(k.unsigned_abs().into(), g));
    // It divides a number of 16 bits, or is 0.
    divisor as i64
}

/// A rule "divided by g with its constant rounded down", if g is over 1; it
/// keeps its number. None for a void equality: g does not divide its constant,
/// and no integer point meets it.
pub fn tightened(rule: &Rule) -> Option<Rule> {
    let g = common_divisor(rule);
    // "Rules with all coefficients 0 remain": their g is 0.
    if g <= 1 {
        return Some(rule.clone());
    }
    if rule.kind == Kind::Equality && rule.constant % g != 0 {
        return None;
    }
    Some(Rule {
        kind: rule.kind,
        number: rule.number,
        // As g is positive, this rounds down and not towards 0.
        constant: rule.constant.div_euclid(g),
        axes: rule.axes.map(|k| k / g),
        divs: rule.divs.map(|k| k / g),
    })
}

/// All the rules tightened; None if one of them is void.
fn all_tightened(rules: &[Rule]) -> Option<Vec<Rule>> {
    rules.iter().map(tightened).collect()
}

/// "First sets are tightened before joining": None for a basic set with a
/// void rule, which "contributes nothing" and so gives no 10 either.
fn first_tightened(basic: &BasicSet) -> Option<BasicSet> {
    let rules = all_tightened(&basic.rules)?;
    Some(BasicSet { divisions: basic.divisions.clone(), rules })
}

/// The candidate of the working rules, tight already, and further ones, if it
/// is kept. Over 48 rules it is refused, whatever would become of it (reading
/// 8); the further rules are tightened "after 10's join and candidate limits",
/// and a void one drops it untested.
fn kept_candidate(
    n: usize,
    working: &BasicSet,
    further: &[Rule],
    watch: &mut Watch,
) -> Result<Option<BasicSet>, u8> {
    if working.rules.len() + further.len() > MAX_RULES {
        return Err(refusal::TOO_MANY_RESULTING);
    }
    let Some(tight) = all_tightened(further) else { return Ok(None) };
    let mut candidate = working.clone();
    candidate.rules.extend(tight);
    let outcome = test(n, &candidate);
    watch(&candidate, outcome);
    Ok(outcome.kept().then_some(candidate))
}

/// Adds to a result; a 33rd basic set is refused.
fn push_result(result: &mut Set, basic: BasicSet) -> Result<(), u8> {
    if result.basics.len() == MAX_BASIC_SETS {
        return Err(refusal::TOO_MANY_RESULTING);
    }
    result.basics.push(basic);
    Ok(())
}

/// First set's basic sets, then the second's, untested and as given.
pub fn union(a: &Set, b: &Set) -> Result<Set, u8> {
    let mut result = Set::empty(a.n);
    for basic in a.basics.iter().chain(&b.basics) {
        push_result(&mut result, basic.clone())?;
    }
    Ok(result)
}

/// Every pair joined and tested, the first set's basic sets outermost.
pub fn intersection(a: &Set, b: &Set, watch: &mut Watch) -> Result<Set, u8> {
    let mut result = Set::empty(a.n);
    for first in a.basics.iter().filter_map(first_tightened) {
        for second in &b.basics {
            let (joined, moved) = join(&first, second)?;
            if let Some(kept) = kept_candidate(a.n, &joined, &moved, watch)? {
                push_result(&mut result, kept)?;
            }
        }
    }
    Ok(result)
}

/// "One cut": the pieces left of a basic set after one cutter. Pieces of an
/// earlier cutter are tight, so that tightening leaves them as they are.
pub fn cut(
    n: usize,
    basic: &BasicSet,
    cutter: &BasicSet,
    watch: &mut Watch,
) -> Result<Vec<BasicSet>, u8> {
    let Some(basic) = first_tightened(basic) else { return Ok(Vec::new()) };
    let (mut working, moved) = join(&basic, cutter)?;
    let mut pieces = Vec::new();
    for rule in moved {
        let before = pieces.len();
        // A void rule's opposites are those of the rule as given.
        for opposite in opposites(&rule) {
            pieces.extend(kept_candidate(n, &working, &[opposite], watch)?);
        }
        if pieces.len() == before {
            continue;
        }
        match tightened(&rule) {
            Some(tight) => working.rules.push(tight),
            // "joining working rules, it ends the cut with the pieces so far"
            None => break,
        }
    }
    Ok(pieces)
}

/// Pieces wait on a stack with the number of cutters they have met, so that
/// the pieces between two cutters, which have no limit, take little room.
/// Any refusal met is 10, so it does not matter which is met first. A basic
/// set with no cutter is written as given.
pub fn difference(a: &Set, b: &Set, watch: &mut Watch) -> Result<Set, u8> {
    let mut result = Set::empty(a.n);
    let mut waiting: Vec<(BasicSet, usize)> =
        a.basics.iter().rev().map(|basic| (basic.clone(), 0)).collect();
    while let Some((piece, met)) = waiting.pop() {
        match b.basics.get(met) {
            None => push_result(&mut result, piece)?,
            Some(cutter) => {
                let pieces = cut(a.n, &piece, cutter, watch)?;
                waiting.extend(pieces.into_iter().rev().map(|p| (p, met + 1)));
            }
        }
    }
    Ok(result)
}

/// The difference of the rule-less basic set and the set.
pub fn complement(a: &Set, watch: &mut Watch) -> Result<Set, u8> {
    difference(&Set::everything(a.n), a, watch)
}

/// "Pieces cut from one basic set are those left of it after the same
/// cutter": element k holds those left after cutter k + 1. Other than
/// `difference` this keeps all pieces of a stage at once.
pub fn pieces_after_each_cutter(
    n: usize,
    basic: &BasicSet,
    cutters: &[BasicSet],
    watch: &mut Watch,
) -> Result<Vec<Vec<BasicSet>>, u8> {
    let mut stages: Vec<Vec<BasicSet>> = Vec::new();
    let mut pieces = vec![basic.clone()];
    for cutter in cutters {
        let mut left = Vec::new();
        for piece in &pieces {
            left.extend(cut(n, piece, cutter, watch)?);
        }
        stages.push(left.clone());
        pieces = left;
    }
    Ok(stages)
}
