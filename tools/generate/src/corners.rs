//! Basic sets for greatest and least (document 02, request 11): corners in which many rules meet, circles of textbooks,
//! cubes whose every corner is visited, slopes and peaks on which numbers grow, and tests of about 200 pivots with an
//! axis more.

use crate::hard;
use crate::model::{Basic, Rule};
use crate::rng::Rng;
use crate::sets::coefficients;
use crate::slots::{rule_of, unit};
use crate::wider::shuffle;

const MOST_RULES: usize = 48;
const PIVOTS: i64 = 200;

/// An expression as a call writes it: any numbers of 32 bits.
#[derive(Clone, Copy)]
pub struct Expression {
    pub constant: i32,
    pub axes: [i32; 8],
    pub divisions: [i32; 8],
}

impl Expression {
    /// The coefficients of a rule.
    pub fn of(rule: &Rule) -> Expression {
        Expression { constant: 0, axes: rule.axes.map(i32::from), divisions: rule.divisions.map(i32::from) }
    }

    /// An axis.
    pub fn axis(axis: usize) -> Expression {
        Expression::of(&rule_of(unit(axis)))
    }

    pub fn times(self, factor: i32) -> Expression {
        let times = |k: i32| k * factor;
        Expression { axes: self.axes.map(times), divisions: self.divisions.map(times), ..self }
    }
}

/// Rules through one point, a few beside it, some of them equalities: ties, and moves of 0.
pub fn corner(rng: &mut Rng) -> (usize, Basic) {
    let n = 1 + rng.below(4);
    corner_of(rng, n, 3)
}

/// The same with coefficients so large that it depends on each choice whether a number goes beyond its bound.
pub fn steep_corner(rng: &mut Rng) -> (usize, Basic) {
    let (n, size) = rng.pick(&[(3, 32_767), (4, 32_767), (5, 4_095), (6, 999), (8, 255)]);
    corner_of(rng, n, size)
}

fn corner_of(rng: &mut Rng, n: usize, size: i64) -> (usize, Basic) {
    let point: Vec<i64> = (0..n).map(|_| rng.range(-3, 3)).collect();
    let rule = |rng: &mut Rng| {
        let mut rule = rule_of(coefficients(rng, n, size));
        let at_point: i64 = point.iter().zip(rule.axes).map(|(x, k)| x * i64::from(k)).sum();
        rule.equality = rng.chance(12);
        let beside = if rule.equality || rng.chance(75) { 0 } else { rng.range(1, 9) };
        Rule { constant: (beside - at_point) as i32, ..rule }
    };
    let rules = (0..1 + rng.below(3 * n)).map(|_| rule(rng)).collect();
    (n, Basic { divisions: Vec::new(), rules })
}

/// Beale's, Kuhn's, and Marshall and Suurballe's examples and one of Chvátal's, in whole numbers: how much is to be
/// greatest, then sums that are at most their last number; the axes are at least 0.
const CIRCLES: [(&[i16], &[[i16; 5]]); 4] = [
    (&[3, -80, 2, -24], &[[1, -32, -4, 36, 0], [1, -24, -1, 6, 0], [0, 0, 1, 0, 1]]),
    (&[2, 3, -1, -12], &[[-2, -9, 1, 9, 0], [1, 3, -1, -6, 0], [2, 3, -1, -12, 2]]),
    (&[4, 4, -18], &[[6, -64, 48, 0, 0], [2, -18, 6, 0, 0], [4, -16, 2, 0, 0], [0, 1, 0, 0, 1]]),
    (&[10, -57, -9, -24], &[[1, -11, -5, 18, 0], [1, -3, -1, 2, 0], [1, 0, 0, 0, 1]]),
];

/// A textbook's set on which other choices of rows or of columns than the lowest-numbered ones go round in a circle, for
/// some order of its rules.
pub fn circle(rng: &mut Rng) -> (usize, Basic, Expression) {
    let (most, sums) = rng.pick(&CIRCLES);
    let mut rules: Vec<Rule> = (0..most.len()).map(|axis| rule_of(unit(axis))).collect();
    for sum in sums {
        let mut rule = Rule { constant: i32::from(sum[4]), ..rule_of([0; 8]) };
        rule.axes[..4].iter_mut().zip(sum).for_each(|(place, k)| *place = -k);
        rules.push(rule);
    }
    if rng.chance(20) {
        // Without its last sum there is no end.
        rules.pop();
    }
    shuffle(rng, &mut rules);
    let mut axes = [0; 8];
    axes[..most.len()].copy_from_slice(most);
    (most.len(), Basic { divisions: Vec::new(), rules }, Expression::of(&rule_of(axes)))
}

/// Klee and Minty's cube: from the first half's corner the way of the lowest-numbered columns to the greatest last axis
/// goes through all 2^n corners.
pub fn cube(rng: &mut Rng) -> (usize, Basic, Expression) {
    let n = if rng.chance(25) { 8 } else { 2 + rng.below(6) };
    let steep = rng.range(2, 9) as i16;
    let height = rng.range(30, 900) as i32;
    let mut rules = Vec::new();
    for axis in 0..n {
        let own = if axis == 0 { 1 } else { steep };
        let (mut low, mut high) = (rule_of([0; 8]), rule_of([0; 8]));
        (low.axes[axis], low.constant) = (own, -1);
        (high.axes[axis], high.constant) = (-own, height * i32::from(own));
        if axis > 0 {
            (low.axes[axis - 1], high.axes[axis - 1]) = (-1, -1);
        }
        rules.extend([low, high]);
    }
    if rng.chance(30) {
        let (i, j) = (rng.below(rules.len()), rng.below(rules.len()));
        rules.swap(i, j);
    }
    (n, Basic { divisions: Vec::new(), rules }, Expression::axis(n - 1))
}

/// Each axis held by the next, by coefficients up to 32,767, and 0 allowed: numbers grow turn by turn as the first axis
/// does, or falls. The last one may have no end.
pub fn slope(rng: &mut Rng) -> (usize, Basic, Expression) {
    let n = 2 + rng.below(6);
    let size = rng.pick(&[9, 255, 4_095, 32_767]);
    let falls = if rng.chance(50) { -1 } else { 1 };
    let mut rules = Vec::new();
    for axis in 0..n {
        let mut rule = rule_of([0; 8]);
        rule.constant = rng.range(0, 9) as i32;
        rule.axes[axis] = -falls * rng.range(size / 2, size) as i16;
        if axis + 1 < n {
            rule.axes[axis + 1] = falls * rng.range(size / 2, size) as i16;
            rule.equality = rule.constant == 0 && rng.chance(20);
        }
        rules.push(rule);
    }
    if rng.chance(10) {
        rules.pop();
    }
    if rng.chance(25) {
        // A first half of a pivot or two.
        let axes = unit(rng.below(n)).map(|k| -falls * k);
        rules.push(Rule { constant: -(rng.range(1, 3) as i32), ..rule_of(axes) });
    }
    let factor = rng.pick(&[1, 1, 7, 255, 32_767]);
    (n, Basic { divisions: Vec::new(), rules }, Expression::axis(0).times(i32::from(falls) * factor))
}

/// Three axes at 2^31, 2^45 and 2^59, by three pivots.
fn tower(from: usize) -> [Rule; 3] {
    let mut rules = [Rule { constant: i32::MIN, ..rule_of(unit(from)) }; 3];
    for step in 1..3 {
        rules[step] = rule_of(unit(from + step));
        rules[step].axes[from + step - 1] = -16_384;
    }
    rules
}

/// A row beyond the bound of 128 bits, or about it, once the tower stands: its last axis k times, and another one.
fn above(last: usize, k: i16, axis: usize, other: i16) -> Rule {
    let mut rule = rule_of([0; 8]);
    (rule.axes[last], rule.axes[axis]) = (k, other);
    rule
}

/// A tower, rows about the bound of 128 bits, and two axes more with some ends, which may be tied to these rows: a turn
/// touches a row beyond the bound, or passes it by.
pub fn peak(rng: &mut Rng) -> (usize, Basic, Expression) {
    let mut rules = tower(0).to_vec();
    for _ in 0..1 + rng.below(2) {
        let k = rng.pick(&[15, 16, 16, 17, 32_767]);
        let constant = rng.range(-1, 1) as i32;
        rules.push(Rule { constant, ..above(2, k, 3 + rng.below(2), rng.pick(&[-1, -1, 0, 1])) });
    }
    for axis in 3..5 {
        let high = Rule { constant: rng.range(1, 9) as i32, ..rule_of(unit(axis).map(|k| -k)) };
        let low = Rule { constant: rng.range(-3, 3) as i32, ..rule_of(unit(axis)) };
        rules.extend([high, low].into_iter().filter(|_| rng.chance(60)));
    }
    let mut expression = Expression::axis(3 + rng.below(2)).times(rng.pick(&[1, -1]));
    if rng.chance(40) {
        expression.axes[2] = rng.pick(&[1, -1, 15, 16, 17, 32_767, -32_767]);
    }
    (5, Basic { divisions: Vec::new(), rules }, expression)
}

/// A hard set with a further axis that takes as many pivots as are missing to about 200: it has a low end, and no high
/// end, one, or one beyond 2^63, which takes three axes more.
pub fn padded(rng: &mut Rng) -> (usize, Basic, Expression) {
    let (n, mut basic, made) = hard::with_point(rng);
    let axis = unit(n);
    let (n, high, more) = match rng.below(4) {
        0 => (n + 1, Vec::new(), 0),
        1 => (n + 1, vec![Rule { constant: 50, ..rule_of(axis.map(|k| -k)) }], 0),
        _ => (n + 4, [&tower(n + 1)[..], &[above(n + 3, 32_767, n, -1)]].concat(), 3),
    };
    let missing = PIVOTS - rng.range(-1, 2) - i64::from(made) - more;
    let room = MOST_RULES - high.len() - basic.rules.len();
    let low = |low: i64| Rule { constant: -low as i32, ..rule_of(axis) };
    basic.rules.extend((1..=missing.min(room as i64)).map(low));
    basic.rules.extend(high);
    (n, basic, Expression::of(&rule_of(axis)))
}
