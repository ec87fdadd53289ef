//! Wider numbers (document 02, request 9): basic sets whose test is wide at 64 bits more often than not, and goes on at
//! 128 bits to a point, to dropped, to long or to wide.

use crate::hard;
use crate::model::{Basic, Division, Rule, Set};
use crate::rng::Rng;
use crate::slots::{multiplied, rule_of, unit};

/// Periods told in two steps, the second over an axis that holds the first one's quotient, since a divisor has 16 bits:
/// 3,600 times 168 seconds are a week, 32,000 times 31,250 are 10^9.
const STEPS: [[u16; 2]; 2] = [[3_600, 168], [32_000, 31_250]];

/// The factors by which hard sets are spread: 1 more than multiples of 6, since their divisors are 1, 2 and 3. From
/// about 200 on the test goes wide at 64 bits; the largest leaves just room for their coefficients.
const LEAST_FACTOR: i64 = 121;
const MOST_FACTOR: i64 = 16_381;

fn negated(rule: Rule) -> Rule {
    Rule { axes: rule.axes.map(|k| -k), divisions: rule.divisions.map(|k| -k), ..rule }
}

/// The opposite of an inequality, -e - 1 >= 0, whose opposite it is in turn.
fn opposite(rule: Rule) -> Rule {
    Rule { constant: !rule.constant, ..negated(rule) }
}

/// A window within a period: at least so much behind its begin, or at most.
fn window(rng: &mut Rng, place: usize, division: &Division) -> Rule {
    let mut rule = rule_of(division.axes);
    rule.divisions[place] = -(division.d as i16);
    let end = rng.range(0, i64::from(division.d) - 1) as i32;
    if rng.chance(50) { Rule { constant: -end, ..rule } } else { Rule { constant: end, ..negated(rule) } }
}

/// A rule that ties axes and quotients together, by small numbers and by those of the periods.
fn tie(rng: &mut Rng, n: usize, divisions: usize) -> Rule {
    let coefficient = |rng: &mut Rng| match rng.below(6) {
        0 | 1 => 0,
        2 | 3 => rng.pick(&[-1, 1]),
        4 => rng.pick(&[-60, -24, -7, 7, 24, 60]),
        _ => rng.pick(&[168, 3_600, 31_250, 32_000]) * rng.pick(&[-1, 1]),
    };
    let constant = match rng.below(4) {
        0 => 0,
        1 => rng.pick(&[-604_800, 604_800, -1_000_000_000, 1_000_000_000]),
        _ => rng.range(-1_000_000_000, 1_000_000_000) as i32,
    };
    let mut rule = Rule { equality: rng.chance(25), constant, ..rule_of([0; 8]) };
    rule.axes[..n].fill_with(|| coefficient(rng));
    rule.divisions[..divisions].fill_with(|| coefficient(rng));
    rule
}

/// Weeks, 10^9 seconds or both: the first axis is the time, each period has an axis of its own for its steps.
fn weeks(rng: &mut Rng) -> (usize, Basic) {
    let from = rng.below(2);
    let periods = if rng.chance(30) { &STEPS[..] } else { &STEPS[from..=from] };
    let mut basic = Basic::default();
    for (i, [step, steps]) in periods.iter().enumerate() {
        let mut equal = Rule { equality: true, ..rule_of(unit(1 + i)) };
        equal.divisions[2 * i] = -1;
        basic.rules.push(equal);
        basic.divisions.push(Division { d: *step, c: 0, axes: unit(0) });
        basic.divisions.push(Division { d: *steps, c: 0, axes: unit(1 + i) });
    }
    let (n, divisions) = (1 + periods.len(), basic.divisions.len());
    for _ in 0..1 + rng.below(4) {
        let place = rng.below(divisions);
        let rule = window(rng, place, &basic.divisions[place]);
        basic.rules.push(rule);
    }
    for _ in 0..1 + rng.below(4) {
        basic.rules.push(tie(rng, n, divisions));
    }
    shuffle(rng, &mut basic.rules);
    (n, basic)
}

/// Each axis held against the one before it by two coefficients near 32,767, so that denominators multiply; one last
/// rule holds the last axis on the same side or on the other.
fn steep(rng: &mut Rng) -> (usize, Basic) {
    let n = 2 + rng.below(6);
    let mut rules = vec![Rule { constant: -(rng.range(1, 9) as i32), ..rule_of(unit(0)) }];
    for axis in 1..n {
        let mut rule = rule_of([0; 8]);
        rule.axes[axis] = rng.range(32_700, 32_767) as i16;
        rule.axes[axis - 1] = -(rng.range(32_700, 32_767) as i16);
        rule.constant = rng.range(-9, 2) as i32;
        rule.equality = rng.chance(20);
        rules.push(rule);
    }
    let last = Rule { constant: rng.range(-3, 3) as i32, ..rule_of(unit(n - 1)) };
    rules.push(if rng.chance(50) { last } else { negated(last) });
    if rng.chance(50) {
        rules = rules.into_iter().map(negated).collect();
    }
    if rng.chance(30) {
        shuffle(rng, &mut rules);
    }
    (n, Basic { divisions: Vec::new(), rules })
}

/// Constants about 2^31 beside small coefficients, and numerators about 10^9.
fn far(rng: &mut Rng) -> (usize, Basic) {
    let (n, divisions) = (1 + rng.below(4), rng.below(3));
    let coefficient = |rng: &mut Rng| rng.pick(&[0, 0, 1, 1, -1, -1, 2, -3, 5]);
    let mut basic = Basic::default();
    for _ in 0..divisions {
        let c = rng.pick(&[-1, 1]) * (1_000_000_000 - rng.below(9) as i32);
        let mut axes = [0; 8];
        axes[..n].fill_with(|| coefficient(rng));
        basic.divisions.push(Division { d: rng.range(1, 9) as u16, c, axes });
    }
    for _ in 0..2 + rng.below(5) {
        let near = rng.below(4) as i32;
        let constant = rng.pick(&[i32::MIN + near, i32::MIN + near, i32::MAX - near, near]);
        let mut rule = Rule { constant, ..rule_of([0; 8]) };
        rule.axes[..n].fill_with(|| coefficient(rng));
        rule.divisions[..divisions].fill_with(|| coefficient(rng));
        rule.equality = rng.chance(20) && constant != i32::MIN;
        basic.rules.push(rule);
    }
    (n, basic)
}

/// A hard set over larger numbers.
fn spread(rng: &mut Rng) -> (usize, Basic) {
    let (n, basic) = hard::near(rng);
    let factor = LEAST_FACTOR + 6 * rng.range(0, (MOST_FACTOR - LEAST_FACTOR) / 6);
    let larger = hard::spread(&basic, factor as i32);
    (n, larger.unwrap_or(basic))
}

pub(crate) fn shuffle(rng: &mut Rng, rules: &mut [Rule]) {
    for i in (1..rules.len()).rev() {
        rules.swap(i, rng.below(i + 1));
    }
}

/// A basic set of few pivots and its number of axes.
pub fn quick(rng: &mut Rng) -> (usize, Basic) {
    match rng.below(3) {
        0 => weeks(rng),
        1 => steep(rng),
        _ => far(rng),
    }
}

/// One of about 200 pivots, to be tested as it is: half of them have each rule times a factor of its own, which keeps
/// every sign too, but would be undone by tightening.
pub fn slow(rng: &mut Rng) -> (usize, Basic) {
    if rng.chance(50) {
        return spread(rng);
    }
    let (n, mut basic) = hard::near(rng);
    let most = rng.pick(&[9, 30, 90, 900]);
    for rule in &mut basic.rules {
        *rule = multiplied(rule, rng.range(1, most) as i16, true).unwrap_or(*rule);
    }
    (n, basic)
}

/// The two sets of an operation, one of whose candidates is such a basic set, and their number of axes: its rules are
/// divided between the pair of an intersection, or between a first set and its cutter, whose last rule is the opposite
/// of the basic set's; the set of a complement is such a cutter.
pub fn operands(rng: &mut Rng, kind: &str) -> (usize, Set, Set) {
    let long = rng.chance(15);
    let (n, basic) = if long { spread(rng) } else { quick(rng) };
    let part = |rules: &[Rule]| vec![Basic { divisions: basic.divisions.clone(), rules: rules.to_vec() }];
    let mut rules = basic.rules.clone();
    if kind != "intersection" {
        // An equality is no opposite of any rule.
        rules.sort_by_key(|rule| !rule.equality);
        if let Some(last) = rules.last_mut().filter(|rule| !rule.equality) {
            *last = opposite(*last);
        }
    }
    if kind == "complement" {
        return (n, part(&rules), Set::new());
    }
    // Each rule of a cutter costs a test or two.
    let least = if long { rules.len() - 4 } else { 0 };
    let (first, second) = rules.split_at(least + rng.below(rules.len() - least));
    (n, part(first), part(second))
}
