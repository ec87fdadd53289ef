//! Half slots (document 02, request 3): rules whose coefficients have a common divisor, void equalities (it does not
//! divide their constant) put first, last or between, alternating slots, and pairs of sets about 10's limits.

use crate::model::{Basic, Division, Rule, Set};
use crate::rng::Rng;
use crate::sets::{coefficients, World};

const DIVISORS: [i16; 3] = [2, 3, 6];

/// The coefficients times g; nothing where one would leave its range.
fn times(numbers: &[i16; 8], g: i16) -> Option<[i16; 8]> {
    let mut out = [0; 8];
    for (place, number) in out.iter_mut().zip(numbers) {
        *place = number.checked_mul(g).filter(|&k| k != i16::MIN)?;
    }
    Some(out)
}

/// The rule with its coefficients times g, its constant too or not; nothing where a number would leave its range.
pub(crate) fn multiplied(rule: &Rule, g: i16, constant_too: bool) -> Option<Rule> {
    let factor = if constant_too { i32::from(g) } else { 1 };
    let constant = rule.constant.checked_mul(factor).filter(|&c| !rule.equality || c != i32::MIN)?;
    Some(Rule { constant, axes: times(&rule.axes, g)?, divisions: times(&rule.divisions, g)?, ..*rule })
}

/// The rule, in a part of the cases with a common divisor, which then divides the constant or not.
pub fn maybe_multiplied(rng: &mut Rng, rule: Rule, percent: usize) -> Rule {
    if !rng.chance(percent) {
        return rule;
    }
    let (g, constant_too) = (rng.pick(&DIVISORS), rng.chance(50));
    multiplied(&rule, g, constant_too).unwrap_or(rule)
}

/// The same for large coefficients: each is brought down to a multiple of the divisor.
pub fn maybe_brought_down(rng: &mut Rng, rule: Rule, percent: usize) -> Rule {
    if !rng.chance(percent) {
        return rule;
    }
    let g = rng.pick(&DIVISORS);
    Rule { axes: rule.axes.map(|k| k - k % g), divisions: rule.divisions.map(|k| k - k % g), ..rule }
}

/// Puts the rule last, first or anywhere.
fn put(rng: &mut Rng, basic: &mut Basic, rule: Rule) {
    let count = basic.rules.len();
    let at = match rng.below(3) {
        0 => count,
        1 => 0,
        _ => rng.below(count + 1),
    };
    basic.rules.insert(at, rule);
}

/// One axis with the coefficient 1.
pub(crate) fn unit(axis: usize) -> [i16; 8] {
    let mut axes = [0; 8];
    axes[axis] = 1;
    axes
}

/// An inequality with these coefficients and the constant 0.
pub(crate) fn rule_of(axes: [i16; 8]) -> Rule {
    Rule { equality: false, number: 0, constant: 0, axes, divisions: [0; 8] }
}

impl World {
    /// A lower end of one of the first two axes, of -20 to 0 or of 1 to 20: all of them have a common point, and so
    /// have the former with the opposite of one of the latter.
    fn lower(&self, rng: &mut Rng, positive: bool) -> Rule {
        let constant = if positive { rng.range(-20, -1) } else { rng.range(0, 20) } as i32;
        Rule { constant, ..rule_of(unit(rng.below(self.n.min(2)))) }
    }

    fn void_equality(&self, rng: &mut Rng, divisions: usize) -> Rule {
        let g = rng.pick(&DIVISORS);
        let mut axes = if rng.chance(50) { [0; 8] } else { coefficients(rng, self.n, 2) };
        axes[rng.below(self.n)] = rng.pick(&[1, -1, 2]);
        let remainder = rng.range(1, i64::from(g) - 1);
        let constant = (i64::from(g) * rng.range(-3, 3) + remainder) as i32;
        let divisions = if rng.chance(50) { [0; 8] } else { coefficients(rng, divisions, 2) };
        let (axes, divisions) = (axes.map(|k| k * g), divisions.map(|k| k * g));
        Rule { equality: true, number: 0, constant, axes, divisions }
    }

    /// Every second or third slot of the first axis, told by a division (x - 2q - 1 = 0), by the last axis
    /// (2x - t - 1 = 0) or by neither (2x - 1 = 0); some with a common divisor, often between two ends.
    fn alternating(&self, rng: &mut Rng) -> Basic {
        let period = rng.pick(&[2i16, 3]);
        let slot = rng.range(0, i64::from(period) - 1) as i32;
        let mut basic = Basic::default();
        let mut rule = Rule { equality: true, constant: -slot, ..rule_of(unit(0)) };
        match rng.below(3) {
            0 => {
                basic.divisions.push(Division { d: period as u16, c: 0, axes: unit(0) });
                rule.divisions[0] = -period;
            }
            1 if self.n > 1 => {
                rule.axes[0] = period;
                rule.axes[self.n - 1] = -1;
            }
            _ => rule.axes[0] = period,
        }
        basic.rules.push(maybe_multiplied(rng, rule, 40));
        if rng.chance(60) {
            let low = Rule { constant: rng.range(-2, 6) as i32, ..rule_of(unit(0)) };
            let high = Rule { constant: rng.range(0, 11) as i32, ..rule_of(unit(0).map(|k| -k)) };
            put(rng, &mut basic, low);
            put(rng, &mut basic, high);
        }
        basic
    }

    /// Two ends with a point with fractions between them and no integer point, as 3x - 1 >= 0 and -3x + 2 >= 0.
    fn thin(&self, rng: &mut Rng) -> Basic {
        let g = rng.pick(&DIVISORS);
        let (low, high) = (rng.range(1, i64::from(g) - 1), rng.range(1, i64::from(g) - 1));
        let base = i64::from(g) * rng.range(-2, 2);
        let axes = unit(rng.below(self.n)).map(|k| k * g);
        let lower = Rule { constant: -(base + low.min(high)) as i32, ..rule_of(axes) };
        let upper = Rule { constant: (base + low.max(high)) as i32, ..rule_of(axes.map(|k| -k)) };
        Basic { divisions: Vec::new(), rules: vec![lower, upper] }
    }

    /// Alternating slots and other small basic sets, some of them with a void equality.
    pub fn slots(&self, rng: &mut Rng) -> Set {
        let basic = |rng: &mut Rng| {
            let mut basic = match rng.below(10) {
                0..=4 => self.alternating(rng),
                5..=6 => self.thin(rng),
                _ => self.small_basic(rng),
            };
            if rng.chance(35) {
                let rule = self.void_equality(rng, basic.divisions.len());
                put(rng, &mut basic, rule);
            }
            basic
        };
        (0..1 + rng.below(3)).map(|_| basic(rng)).collect()
    }

    /// No integer point, and one point with fractions, which tightening leaves: all candidates of a void equality
    /// through it are dropped, and the cut goes on to the rules behind.
    fn between(&self, rng: &mut Rng) -> (Set, Set) {
        let constant = -2 * rng.range(-3, 3) as i32 - 1;
        let mut first = Basic::default();
        let equality = |constant, axes| Rule { equality: true, constant, ..rule_of(axes) };
        let void = equality(constant, unit(0).map(|k| 2 * k));
        if self.n > 1 {
            // x + y = c and x - y = 0
            let (mut sum, mut even) = (equality(constant, unit(0)), equality(0, unit(0)));
            (sum.axes[1], even.axes[1]) = (1, -1);
            first.rules = vec![sum, even];
        } else {
            // 2x + q = c and 2x - q = c; at x = c / 2 the numerator of q is 1/2
            first.divisions.push(Division { d: 2, c: (constant + 1) / 2, axes: unit(0) });
            let by_q = |k| Rule { divisions: unit(0).map(|one| k * one), ..void };
            first.rules = vec![by_q(1), by_q(-1)];
        }
        let mut cutter = Basic { divisions: Vec::new(), rules: vec![self.lower(rng, true)] };
        put(rng, &mut cutter, void);
        (vec![first], vec![cutter])
    }

    /// Two basic sets with 7 to 10 divisions together, all different.
    pub(crate) fn about_eight(&self, rng: &mut Rng) -> (Basic, Basic) {
        let (split, all) = (3 + rng.below(3), 7 + rng.below(4));
        let division = |i: usize| Division { d: 2 + i as u16, c: i as i32, axes: unit(0) };
        let basic = |rng: &mut Rng, places: std::ops::Range<usize>, positive: bool| Basic {
            divisions: places.map(division).collect(),
            rules: (0..1 + rng.below(3)).map(|_| self.lower(rng, positive)).collect(),
        };
        (basic(rng, 0..split, false), basic(rng, split..all, true))
    }

    /// Two basic sets with 48 to 50 rules together, once each has got one more: most of them in the first one, for a
    /// cut, or as many in each.
    fn about_48(&self, rng: &mut Rng, cut: bool) -> (Basic, Basic) {
        let counts = [(46, 3), (47, 2), (47, 2), (47, 3), (48, 2), (48, 2), (24, 24), (24, 25), (25, 24), (25, 25)];
        let (first, second) = rng.pick(if cut { &counts[..6] } else { &counts[3..] });
        let basic = |rng: &mut Rng, count: usize, positive: bool| Basic {
            divisions: Vec::new(),
            rules: (1..count).map(|_| self.lower(rng, positive)).collect(),
        };
        (basic(rng, first, false), basic(rng, second, true))
    }

    /// About 10's limits, with a void equality in the first set, in the second, in both or in none.
    fn about_ten(&self, rng: &mut Rng, cut: bool) -> (Set, Set) {
        let (mut first, mut second) = if rng.chance(40) { self.about_eight(rng) } else { self.about_48(rng, cut) };
        let voids = match rng.below(8) {
            0..=2 => (true, false),
            3..=5 => (false, true),
            6 => (true, true),
            _ => (false, false),
        };
        for (basic, void, positive) in [(&mut first, voids.0, false), (&mut second, voids.1, true)] {
            let count = basic.divisions.len();
            let rule = if void { self.void_equality(rng, count) } else { self.lower(rng, positive) };
            put(rng, basic, rule);
        }
        let mut first = vec![first];
        if rng.chance(30) {
            first.push(self.boxed(rng));
        }
        (first, vec![second])
    }

    /// The two sets of an operation in which void equalities matter, those of a cut near its limits if so wished.
    pub fn half_slots(&self, rng: &mut Rng, cut: bool) -> (Set, Set) {
        match rng.below(20) {
            0..=10 => self.about_ten(rng, cut),
            11..=13 => self.between(rng),
            _ => (self.slots(rng), self.slots(rng)),
        }
    }
}
