//! Calls of greatest and least (document 02, request 11): sets, numbers of basic sets and expressions; and what such
//! calls reach.

use crate::calls::{axes, bytes, point_words};
use crate::corners::{circle, corner, cube, padded, peak, slope, steep_corner, Expression};
use crate::hard;
use crate::histogram::{bump, Counts};
use crate::model::{Basic, Set};
use crate::rng::Rng;
use crate::sets::{coefficients, World};
use crate::turns::Counter;
use crate::wider;
use hexscript::tokens::unhex;
use second::bytes::check_coefficients;
use second::extreme::Aim;
use second::{parse, refusal, BasicSet, Kind, Rule};

/// What has to occur: basic sets and expressions, refusals, answers in either half, and turns of the second one.
pub const EVENTS: [&str; 52] = [
    "K of 0",
    "K over the count",
    "no such basic set, bad expression",
    "a later basic set",
    "no rules",
    "7 of the expression",
    "8 by an axis",
    "8 by a division",
    "7 before 8",
    "the set before 7 and 8",
    "expression without coefficients",
    "divisions in the expression",
    "coefficients of 32,767",
    "whole value",
    "fraction",
    "value of 0",
    "value below 0",
    "value of two words",
    "value reduced further than its row",
    "value at 200 pivots",
    "empty",
    "unbounded, growing column",
    "unbounded, free column up",
    "unbounded, free column down",
    "unbounded at 200 pivots",
    "wide in the first half",
    "wide in the second half",
    "wide by the expression alone, first half",
    "wide by the expression alone, second half",
    "unbounded before wide",
    "row beyond the bound untouched",
    "long in the first half",
    "long in the second half",
    "long before wide",
    "over 100 pivots in the second half",
    "pivots in both halves",
    "carried in the first half, value",
    "carried in the first half, empty",
    "carried in the first half, unbounded",
    "carried in the second half, value",
    "carried in the second half, unbounded",
    "carried by the expression alone",
    "growing column enters",
    "free column enters upward",
    "free column enters downward",
    "tie",
    "tie with an equality",
    "move of 0",
    "equality leaves, growing",
    "equality leaves, falling",
    "equality column passed over",
    "free row passed over",
];

/// What is asked of which of the basic sets, from 1.
struct Question {
    n: usize,
    set: Set,
    k: usize,
    expression: Expression,
}

/// Small numbers, one place, the numbers of one of the rules, no place at all, or numbers up to the largest.
fn any_expression(rng: &mut Rng, n: usize, basic: &Basic) -> Expression {
    let divisions = basic.divisions.len();
    let wide = |numbers: [i16; 8]| numbers.map(i32::from);
    let of_size = |rng: &mut Rng, size: i64| Expression {
        constant: 0,
        axes: wide(coefficients(rng, n, size)),
        divisions: wide(coefficients(rng, divisions, size)),
    };
    let mut expression = match rng.below(20) {
        0 => of_size(rng, 0),
        1..=5 => {
            let place = rng.below(n + divisions);
            let mut one = of_size(rng, 0);
            *if place < n { &mut one.axes[place] } else { &mut one.divisions[place - n] } = rng.pick(&[1, -1]);
            one
        }
        6 | 7 if !basic.rules.is_empty() => Expression::of(&rng.pick(&basic.rules)).times(rng.pick(&[1, -1])),
        8 | 9 => of_size(rng, 32_767),
        10 => Expression { axes: wide(coefficients(rng, n, 1)).map(|k| k * 32_767), ..of_size(rng, 1) },
        _ => of_size(rng, 3),
    };
    expression.constant = match rng.below(8) {
        0..=3 => 0,
        4 => rng.pick(&[i32::MAX, i32::MIN, i32::MIN + 1]),
        _ => rng.range(-9, 9) as i32,
    };
    expression
}

/// A set of one basic set.
fn alone((n, basic): (usize, Basic)) -> (usize, Set) {
    (n, vec![basic])
}

fn any_set(rng: &mut Rng, world: &World) -> (usize, Set) {
    match rng.below(30) {
        0 => (world.n, vec![Basic::default()]),
        1 => (world.n, Set::new()),
        2..=6 => (world.n, [world.small(rng), vec![world.boxed(rng)]].concat()),
        7..=9 => (world.n, world.small(rng)),
        10 => (world.n, world.any(rng)),
        11 => (world.n, world.near_limit(rng, false)),
        12..=14 => {
            let n = 2 + rng.below(5);
            alone((n, World::with_axes(rng, n).dense(rng)))
        }
        15..=18 => alone(corner(rng)),
        19..=22 => alone(steep_corner(rng)),
        23 => alone((world.n, world.wide(rng))),
        24 => alone(hard::near(rng)),
        _ => alone(wider::quick(rng)),
    }
}

fn question(rng: &mut Rng, world: &World, kind: &str) -> Question {
    let flavour = rng.below(40);
    let (n, basic, expression) = match flavour {
        0 | 1 => cube(rng),
        2..=7 => slope(rng),
        8..=10 => circle(rng),
        11 | 12 => padded(rng),
        13 | 14 => peak(rng),
        _ => {
            let (n, set) = any_set(rng, world);
            let k = 1 + rng.below(set.len().max(1));
            let expression = any_expression(rng, n, set.get(k - 1).unwrap_or(&Basic::default()));
            return Question { n, set, k, expression };
        }
    };
    // The first three are made for the greatest value; of the others either one is worth asking.
    let towards = if flavour <= 10 && kind == "least" { -1 } else { 1 };
    Question { n, set: vec![basic], k: 1, expression: expression.times(towards) }
}

/// A coefficient at any place, present or not, in its range or out of it.
fn spoil(rng: &mut Rng, expression: &mut Expression) {
    for _ in 0..1 + rng.below(2) {
        let number = rng.pick(&[1, -1, 5, 32_767, -32_767, 32_768, -32_768, 65_536, i32::MAX, i32::MIN]);
        let list = if rng.chance(60) { &mut expression.axes } else { &mut expression.divisions };
        list[rng.below(8)] = number;
    }
}

pub fn call(rng: &mut Rng, world: &World, kind: &str) -> String {
    let mut asked = question(rng, world, kind);
    if rng.chance(6) {
        asked.k = rng.pick(&[0, asked.set.len() + 1, 33]);
    }
    if rng.chance(8) {
        spoil(rng, &mut asked.expression);
    }
    let Expression { constant, axes: places, divisions } = asked.expression;
    let (n, set, k) = (axes(rng, asked.n), bytes(rng, &asked.set, 3), asked.k);
    format!("{kind} {n} {set} {k} {constant} {} {}", point_words(&places), point_words(&divisions))
}

/// A call of greatest or least, read back.
struct Asked {
    aim: Aim,
    set: Result<second::Set, u8>,
    k: u64,
    expression: Rule,
}

fn asked(call: &str) -> Option<Asked> {
    let words: Vec<&str> = call.split(' ').collect();
    let [kind @ ("greatest" | "least"), n, set, k, numbers @ ..] = &words[..] else { return None };
    let numbers: Vec<i64> = numbers.iter().filter_map(|word| word.parse().ok()).collect();
    let eight = |at: usize| numbers.get(at..at + 8)?.try_into().ok();
    Some(Asked {
        aim: if *kind == "greatest" { Aim::Greatest } else { Aim::Least },
        set: parse(n.parse().ok()?, &unhex(set)?),
        k: k.parse().ok()?,
        expression: Rule {
            kind: Kind::Inequality,
            number: 0,
            constant: *numbers.first()?,
            axes: eight(1)?,
            divs: eight(9)?,
        },
    })
}

fn out_of_range(expression: &Rule) -> bool {
    expression.axes.iter().chain(&expression.divs).any(|k| k.abs() > 32_767)
}

/// Counts a call up to its search, which is counted where there is one.
pub fn count(call: &str, counts: &mut Counts) {
    let Some(Asked { aim, set, k, expression }) = asked(call) else { return };
    let Ok(set) = set else {
        if out_of_range(&expression) {
            bump(counts, "the set before 7 and 8");
        }
        return;
    };
    let Some(basic) = set.basic(k) else {
        bump(counts, if k == 0 { "K of 0" } else { "K over the count" });
        if out_of_range(&expression) {
            bump(counts, "no such basic set, bad expression");
        }
        return;
    };
    let absent_axis = expression.axes[set.n..].iter().any(|&k| k != 0);
    let absent_division = expression.divs[basic.divisions.len()..].iter().any(|&k| k != 0);
    match check_coefficients(set.n, basic, &expression) {
        Err(refusal::NUMBER_RANGE) => {
            bump(counts, "7 of the expression");
            let in_range = |numbers: &[i64]| numbers.iter().any(|&k| k != 0 && k.abs() <= 32_767);
            if in_range(&expression.axes[set.n..]) || in_range(&expression.divs[basic.divisions.len()..]) {
                bump(counts, "7 before 8");
            }
        }
        Err(_) => {
            let places = [("8 by an axis", absent_axis), ("8 by a division", absent_division)];
            places.iter().filter(|(_, is)| *is).for_each(|(name, _)| bump(counts, name));
        }
        Ok(()) => {
            count_expression(k, basic, &expression, counts);
            Counter::new(set.n, basic, aim, &expression, counts).run();
        }
    }
}

fn count_expression(k: u64, basic: &BasicSet, expression: &Rule, counts: &mut Counts) {
    let places = || expression.axes.iter().chain(&expression.divs);
    let met = [
        ("a later basic set", k > 1),
        ("no rules", basic.rules.is_empty()),
        ("expression without coefficients", places().all(|&k| k == 0)),
        ("divisions in the expression", expression.divs.iter().any(|&k| k != 0)),
        ("coefficients of 32,767", places().any(|&k| k.abs() == 32_767)),
    ];
    met.iter().filter(|(_, is)| *is).for_each(|(name, _)| bump(counts, name));
}
