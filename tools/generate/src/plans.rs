//! What walks of named states (document 02, request 8) start from and add: small sets, sets rule by rule, pillars whose
//! rows come near the bounds, and hard sets that wait for one rule.

use crate::corners::{corner, steep_corner};
use crate::hard;
use crate::model::{Basic, Division, Rule};
use crate::rng::Rng;
use crate::sets::{coefficients, World};
use crate::slots::{rule_of, unit};
use crate::wider::{self, shuffle};
use second::states::State;
use second::tableau::Row;
use second::test::{BOUND_128, BOUND_64};

const MOST_RULES: usize = 48;
const PIVOTS: i64 = 200;

/// A start, the rules that follow in order, and how large the numbers of further ones are.
#[derive(Clone)]
pub struct Plan {
    pub n: usize,
    pub divisions: Vec<Division>,
    pub rules: Vec<Rule>,
    /// The rule before which the state is worth a mark.
    pub crux: Option<usize>,
    pub size: i64,
}

impl Plan {
    fn of((n, basic): (usize, Basic), size: i64) -> Plan {
        Plan { n, divisions: basic.divisions, rules: basic.rules, crux: None, size }
    }

    /// A rule that is not in the plan: small numbers or those of its size, one place, or all of them.
    pub fn more(&self, rng: &mut Rng) -> Rule {
        let size = if rng.chance(50) { 3 } else { self.size };
        let mut rule = Rule {
            equality: rng.chance(15),
            number: 0,
            constant: rng.range(-9, 9) as i32,
            axes: coefficients(rng, self.n, size),
            divisions: coefficients(rng, self.divisions.len(), size),
        };
        if rng.chance(35) {
            (rule.axes, rule.divisions) = ([0; 8], [0; 8]);
            let place = rng.below(self.n + self.divisions.len());
            *at(&mut rule, self.n, place) = rng.pick(&[1, -1]);
        }
        rule
    }
}

/// The coefficient of a free variable by its number.
fn at(rule: &mut Rule, n: usize, variable: usize) -> &mut i16 {
    if variable < n { &mut rule.axes[variable] } else { &mut rule.divisions[variable - n] }
}

/// Any number of axes and divisions, small rules, of which some make it empty.
pub fn small(rng: &mut Rng) -> Plan {
    let n = if rng.chance(60) { 1 + rng.below(3) } else { 1 + rng.below(8) };
    let count = if rng.chance(50) { rng.below(3) } else { rng.below(9) };
    let division = |rng: &mut Rng| {
        let axes = if rng.chance(80) { coefficients(rng, n, 3) } else { [0; 8] };
        Division { d: rng.range(1, 6) as u16, c: rng.range(-9, 9) as i32, axes }
    };
    let divisions: Vec<Division> = (0..count).map(|_| division(rng)).collect();
    let mut plan = Plan { n, divisions, rules: Vec::new(), crux: None, size: rng.pick(&[1, 2, 4]) };
    plan.rules = (0..4 + rng.below(20)).map(|_| plan.more(rng)).collect();
    plan
}

/// A basic set of another kind of calls, rule by rule.
pub fn rule_by_rule(rng: &mut Rng) -> Plan {
    let world = World::new(rng);
    match rng.below(12) {
        0 | 1 => Plan::of((world.n, world.boxed(rng)), 2),
        2 | 3 => {
            let n = 2 + rng.below(5);
            Plan::of((n, World::with_axes(rng, n).dense(rng)), 4)
        }
        4 => Plan::of(corner(rng), 3),
        5 | 6 => Plan::of(steep_corner(rng), 255),
        7 => Plan::of((world.n, world.wide(rng)), 32_767),
        8 => Plan::of(hard::near(rng), 4),
        _ => Plan::of(wider::quick(rng), rng.pick(&[9, 4_095, 32_767])),
    }
}

/// Divisions whose bounds take pivots over large numbers: the start is carried, or wide.
pub fn steep_start(rng: &mut Rng) -> Plan {
    let n = 3 + rng.below(6);
    let size = rng.pick(&[99, 4_095, 32_767]);
    let division = |rng: &mut Rng| {
        let axes = coefficients(rng, n, size);
        Division { d: rng.range(1, 32_767) as u16, c: -(rng.range(1, 1_000_000_000) as i32), axes }
    };
    let divisions: Vec<Division> = (0..3 + rng.below(6)).map(|_| division(rng)).collect();
    let mut plan = Plan { n, divisions, rules: Vec::new(), crux: None, size: 9 };
    plan.rules = (0..8).map(|_| plan.more(rng)).collect();
    plan
}

/// Chains of axes in any order, each axis held by the one before it: upward, so that constants grow, or downward, so
/// that denominators do; and axes that stand alone, at a small number.
pub fn pillars(rng: &mut Rng) -> Plan {
    let n = 3 + rng.below(6);
    let mut axes: Vec<usize> = (0..n).collect();
    (1..n).rev().for_each(|i| axes.swap(i, rng.below(i + 1)));
    let mut rules = Vec::new();
    while !axes.is_empty() {
        let height = rng.pick(&[1, 1, 2, 3, 4, 5, 6]).min(axes.len());
        let chain = axes.split_off(axes.len() - height);
        rules.extend(pillar(rng, &chain));
    }
    Plan { n, divisions: Vec::new(), crux: Some(rules.len()), rules, size: rng.pick(&[2, 128, 32_767]) }
}

fn pillar(rng: &mut Rng, chain: &[usize]) -> Vec<Rule> {
    let steep = rng.pick(&[2, 181, 4_096, 16_384, 16_384, 32_767]);
    let (up, constant, steep) = match rng.below(8) {
        // 2^31, 2^45, 2^59: 16 times that is the first number beyond the bound.
        0 | 1 => (true, i32::MIN, 16_384),
        2 => (true, rng.pick(&[i32::MIN, i32::MIN + 1, -32_767]), steep),
        part => (part < 4, -(rng.range(1, 9) as i32), steep),
    };
    let sign = rng.pick(&[1, 1, -1]);
    let equality = constant != i32::MIN && rng.chance(20);
    let mut rules = vec![Rule { equality, constant, ..rule_of(unit(chain[0]).map(|k| sign * k)) }];
    for step in chain.windows(2) {
        let mut rule = Rule { equality: rng.chance(20), ..rule_of([0; 8]) };
        let (own, before) = if up { (1, steep) } else { (steep, 1) };
        (rule.axes[step[1]], rule.axes[step[0]]) = (sign * own, -sign * before);
        rules.push(rule);
    }
    rules
}

/// The axes and divisions that are rows.
fn rows(state: &State) -> Vec<&Row> {
    let free = state.tableau.columns.len();
    state.tableau.rows.iter().filter(|row| row.variable < free).collect()
}

/// A coefficient with which the number is about the bound.
fn towards(rng: &mut Rng, number: i128, bound: i128) -> Option<i16> {
    let most = bound / number.max(1);
    let k = most + i128::from(rng.pick(&[0, 0, 1, 1, -1]));
    i16::try_from(k).ok().filter(|&k| k > 0)
}

/// The largest of a row's numbers.
fn largest(row: &Row) -> i128 {
    let numbers = row.entries.iter().chain([&row.constant, &row.denominator]);
    numbers.map(|number| number.abs()).max().unwrap_or(0)
}

/// A rule in whose row a replaced one, or its denominator beside a coefficient that waits, comes about a bound; or one
/// over a few of the rows, whose coefficients have powers of 2.
pub fn aimed(rng: &mut Rng, state: &State) -> Option<Rule> {
    let mut rows = rows(state);
    rows.sort_by_key(|row| row.variable);
    let farthest = (0..rows.len()).max_by_key(|&place| largest(rows[place]))?;
    let place = if rng.chance(50) { farthest } else { rng.below(rows.len()) };
    // A later one, which waits, if there is one.
    let (first, later) = (rows[place], rows[place + rng.below(rows.len() - place)]);
    let bound = if rng.chance(25) { BOUND_64 } else { BOUND_128 };
    let mut rule = Rule { equality: rng.chance(15), constant: rng.pick(&[-1, -1, 0, 1]), ..rule_of([0; 8]) };
    let mut put = |row: &Row, k: i16| *at(&mut rule, state.n, row.variable) = k;
    match rng.below(12) {
        0..=3 => {
            put(later, rng.pick(&[1, -1, 3]));
            put(first, towards(rng, largest(first), bound)?);
        }
        4..=7 => {
            put(first, rng.pick(&[1, 1, 3, 64, 16_384]));
            put(later, towards(rng, first.denominator, bound)?);
        }
        _ => {
            for _ in 0..1 + rng.below(4) {
                let k = rng.pick(&[1, 2, 16, 127, 128, 4_096, 16_384, 32_767]);
                put(rows[rng.below(rows.len())], k * rng.pick(&[1, -1]));
            }
        }
    }
    Some(rule)
}

/// A hard set whose constants stand at a further axis, so that all its rules hold at 0 and none takes a pivot; with
/// that axis put at 1 the addition makes the pivots of the whole test, and one more. Nothing where a constant is too
/// large.
fn waiting(n: usize, basic: &Basic) -> Option<Basic> {
    let mut out = basic.clone();
    for division in &mut out.divisions {
        division.axes[n] = i16::try_from(std::mem::take(&mut division.c)).ok()?;
    }
    for rule in &mut out.rules {
        rule.axes[n] = i16::try_from(std::mem::take(&mut rule.constant)).ok()?;
    }
    Some(out)
}

/// Such a set and its number of axes, most of them with rules on an axis more that bring its pivots to about 200.
fn about_200(rng: &mut Rng) -> Option<(usize, Basic)> {
    if rng.chance(30) {
        let (n, basic) = hard::near(rng);
        return Some((n, waiting(n, &basic)?));
    }
    let (n, basic, made) = hard::with_point(rng);
    let mut basic = waiting(n, &basic)?;
    let missing = PIVOTS - 1 - rng.range(-3, 1) - i64::from(made);
    let room = MOST_RULES - 6 - basic.rules.len();
    for low in 1..=missing.min(room as i64) {
        let mut rule = rule_of(unit(n + 1));
        rule.axes[n] = -low as i16;
        basic.rules.push(rule);
    }
    Some((n, basic))
}

/// Such a set, the rule that it waits for, and a few more.
pub fn hard_addition(rng: &mut Rng) -> Plan {
    let Some((n, mut basic)) = about_200(rng) else { return rule_by_rule(rng) };
    if rng.chance(50) {
        // A pivot of the start.
        basic.divisions.push(Division { d: 2, c: -5, axes: [0; 8] });
    }
    let mut put = Rule { equality: rng.chance(90), constant: -1, ..rule_of(unit(n)) };
    if n + 4 <= 8 && rng.chance(30) {
        // Two more axes at the bound of 64 bits, whose difference takes the row beyond it and back.
        let far = |axis: usize| Rule { equality: true, constant: -i32::MAX, ..rule_of(unit(axis)) };
        basic.rules.extend([far(n + 2), far(n + 3)]);
        (put.axes[n + 2], put.axes[n + 3]) = (2, -2);
    }
    let crux = Some(basic.rules.len());
    basic.rules.push(put);
    // A pivot or so each.
    let low = |rng: &mut Rng| Rule { constant: -(rng.range(1, 99) as i32), ..rule_of(unit(n + 1)) };
    basic.rules.extend((0..2 + rng.below(3)).map(|_| low(rng)));
    Plan { crux, ..Plan::of((8, basic), 2) }
}

/// Rules that hold at 0, and then at times one that ends it: empty, or wide.
pub fn many(rng: &mut Rng) -> Plan {
    let n = 4 + rng.below(3);
    let side = |rng: &mut Rng| Rule { constant: rng.range(0, 9) as i32, ..rule_of(coefficients(rng, n, 1)) };
    let mut rules: Vec<Rule> = (0..MOST_RULES + 2).map(|_| side(rng)).collect();
    let none = Rule { constant: -1, ..rule_of([0; 8]) };
    let high = |axis: usize, steep: i16| {
        let mut rule = rule_of(unit(axis + 1));
        rule.axes[axis] = -steep;
        rule
    };
    let wide = [Rule { constant: i32::MIN, ..rule_of(unit(0)) }, high(0, 16_384), high(1, 16_384), high(2, 16)];
    let place = rng.below(MOST_RULES - 4);
    match rng.below(3) {
        0 => drop(rules.splice(place..=place, [none])),
        1 => drop(rules.splice(0..4, wide)),
        _ => {}
    }
    if rng.chance(20) {
        shuffle(rng, &mut rules);
    }
    Plan { n, divisions: Vec::new(), rules, crux: None, size: 1 }
}

/// One axis whose low end rises rule by rule, and high ends by which two states can be told apart.
pub fn ladder(rng: &mut Rng) -> Plan {
    let low = |low: i32| Rule { constant: -low, ..rule_of(unit(0)) };
    let high = |high: i32| Rule { constant: high, ..rule_of(unit(0).map(|k| -k)) };
    let rules = (1..=20).map(|step| if rng.chance(75) { low(step) } else { high(rng.range(0, 20) as i32) }).collect();
    Plan { n: 1, divisions: Vec::new(), rules, crux: None, size: 1 }
}
