//! The rule's own number (document 02, request 6): numbers for the rules of sets, and what numbered sets reach in a
//! reading and in the operations.

use crate::histogram::{bump, Counts};
use crate::model::{encode, Basic, Rule, Set};
use crate::rng::Rng;
use hexscript::layout::{cut, find, RULE_NUMBER, SET};
use second::algebra::{self, join, opposites, tightened, unwatched};
use second::{parse, refusal, BasicSet};

/// What sets have to reach: numbers, and 17 with what it comes before or behind within one command.
pub const OF_SETS: [&str; 9] = [
    "number 1",
    "number 65,535",
    "another number",
    "17 alone",
    "17 before 7",
    "17 before 8",
    "3 before 17",
    "4 before 17",
    "9 before 17",
];

/// What operations have to reach: where rules keep a number, and what the numbers do to the length of a result.
pub const OF_OPERATIONS: [&str; 8] = [
    "numbers in a union",
    "numbers with no cutter",
    "numbered opposite",
    "numbered opposites of an equality",
    "numbered rule tightened",
    "numbered rule moved",
    "numbers to the last byte",
    "11 by the numbers alone",
];

/// 1, 65,535 or any other.
fn any_number(rng: &mut Rng) -> u16 {
    match rng.below(3) {
        0 => 1,
        1 => u16::MAX,
        _ => rng.range(1, i64::from(u16::MAX)) as u16,
    }
}

/// The set with numbers for some of its rules: for none in half of the sets, for all in a tenth, else for half of them,
/// so that about 70 of 100 rules have none. They come from a stream aside: without them all would be as it is.
pub fn numbered(set: &[Basic], rng: &Rng) -> Set {
    let rng = &mut rng.aside(&encode(set));
    let percent = rng.pick(&[0, 0, 0, 0, 0, 50, 50, 50, 50, 100]);
    with_share(set, rng, percent)
}

/// The set with numbers for so many of a hundred rules.
fn with_share(set: &[Basic], rng: &mut Rng, percent: usize) -> Set {
    let mut set = set.to_vec();
    for rule in set.iter_mut().flat_map(|basic| &mut basic.rules) {
        rule.number = if rng.chance(percent) { any_number(rng) } else { 0 };
    }
    set
}

/// The set with a number for every rule.
pub fn all_numbered(set: &[Basic], rng: &Rng) -> Set {
    with_share(set, &mut rng.aside(&encode(set)), 100)
}

/// The rule with a number, in 30 of 100 cases.
pub fn maybe_numbered(rule: &Rule, rng: &Rng) -> Rule {
    let rng = &mut rng.aside(&rule.bytes());
    Rule { number: if rng.chance(30) { any_number(rng) } else { 0 }, ..*rule }
}

/// The bytes of the set with such numbers.
pub fn written(set: &[Basic], rng: &Rng) -> Vec<u8> {
    encode(&numbered(set, rng))
}

/// The set without numbers.
pub fn plain(set: &[Basic]) -> Set {
    let mut set = set.to_vec();
    set.iter_mut().flat_map(|basic| &mut basic.rules).for_each(|rule| rule.number = 0);
    set
}

/// Counts what the bytes of a set reach.
pub fn of_set(n: u8, bytes: &[u8], counts: &mut Counts) {
    match parse(n, bytes) {
        Ok(set) => rules(&set).for_each(|rule| of_number(rule.number, counts)),
        Err(number) => of_refusal(n, bytes, number, counts),
    }
}

fn rules(set: &second::Set) -> impl Iterator<Item = &second::Rule> {
    set.basics.iter().flat_map(|basic| &basic.rules)
}

fn of_number(number: u16, counts: &mut Counts) {
    match number {
        0 => {}
        1 => bump(counts, "number 1"),
        u16::MAX => bump(counts, "number 65,535"),
        _ => bump(counts, "another number"),
    }
}

/// The place of the command that is refused: the first with which the bytes so far are.
fn refused_at(n: u8, bytes: &[u8]) -> usize {
    let mut at = 0;
    while let Ok((_, own)) = cut(SET, &bytes[at..]) {
        if parse(n, &bytes[..at + own.len()]).is_err() {
            break;
        }
        at += own.len();
    }
    at
}

/// Counts a refusal of a command with number 0, by what else is wrong with it.
fn of_refusal(n: u8, bytes: &[u8], number: u8, counts: &mut Counts) {
    let at = refused_at(n, bytes);
    let Some(place) = bytes.get(at).and_then(|&code| find(SET, code)?.place(RULE_NUMBER)) else { return };
    if bytes.get(at + place..at + place + RULE_NUMBER.length()) != Some(&[0, 0]) {
        return;
    }
    match number {
        refusal::CUT_OFF | refusal::NO_BASIC_SET | refusal::TOO_MANY_GIVEN => {
            bump(counts, &format!("{number} before 17"));
        }
        refusal::NO_NUMBER => {
            let mut given = bytes.to_vec();
            given[at + place] = 1;
            let (_, own) = cut(SET, &given[at..]).expect("a whole command");
            match parse(n, &given[..at + own.len()]) {
                Ok(_) => bump(counts, "17 alone"),
                Err(behind) => bump(counts, &format!("17 before {behind}")),
            }
        }
        _ => {}
    }
}

/// Counts an operation on good sets, its result in a table of so many bytes.
pub fn of_operation(kind: &str, a: &second::Set, b: &second::Set, room: usize, counts: &mut Counts) {
    if rules(a).chain(rules(b)).all(|rule| rule.number == 0) {
        return;
    }
    let result = match kind {
        "union" => algebra::union(a, b),
        "intersection" => algebra::intersection(a, b, &mut unwatched),
        "difference" => algebra::difference(a, b, &mut unwatched),
        "complement" => algebra::complement(a, &mut unwatched),
        _ => return,
    };
    let Ok(result) = result else { return };
    of_length(&result, room, counts);
    let everything = second::Set::everything(a.n);
    match kind {
        "union" => bump(counts, "numbers in a union"),
        "difference" if b.basics.is_empty() && has_number(&result) => bump(counts, "numbers with no cutter"),
        "intersection" => of_pairs(a, b, false, counts),
        "difference" => of_pairs(a, b, true, counts),
        _ => of_pairs(&everything, a, true, counts),
    }
}

fn has_number(set: &second::Set) -> bool {
    rules(set).any(|rule| rule.number != 0)
}

fn of_length(result: &second::Set, room: usize, counts: &mut Counts) {
    let length = second::encode(result).len();
    let numbers = 2 * rules(result).filter(|rule| rule.number != 0).count();
    if numbers > 0 && length == room {
        bump(counts, "numbers to the last byte");
    }
    if length > room && length - numbers <= room {
        bump(counts, "11 by the numbers alone");
    }
}

/// Pairs of an intersection, or first sets with the first cutter, whose pieces the others cut in the same way.
fn of_pairs(a: &second::Set, b: &second::Set, cutting: bool, counts: &mut Counts) {
    let seconds = if cutting { &b.basics[..b.basics.len().min(1)] } else { &b.basics[..] };
    for first in &a.basics {
        for second in seconds {
            of_pair(a.n, first, second, cutting, counts);
        }
    }
}

fn of_pair(n: usize, first: &BasicSet, second: &BasicSet, cutting: bool, counts: &mut Counts) {
    let Ok((_, moved)) = join(first, second) else { return };
    let pieces = if cutting { algebra::cut(n, first, second, &mut unwatched).unwrap_or_default() } else { Vec::new() };
    for (given, rule) in second.rules.iter().zip(&moved).filter(|(given, _)| given.number != 0) {
        if given.divs != rule.divs {
            bump(counts, "numbered rule moved");
        }
        if tightened(rule).is_some_and(|tight| tight != *rule) {
            bump(counts, "numbered rule tightened");
        }
        let kept = |tight: &second::Rule| pieces.iter().any(|piece| piece.rules.last() == Some(tight));
        match opposites(rule).iter().filter_map(tightened).filter(kept).count() {
            0 => {}
            1 => bump(counts, "numbered opposite"),
            _ => bump(counts, "numbered opposites of an equality"),
        }
    }
}
