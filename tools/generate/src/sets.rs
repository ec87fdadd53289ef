//! Random sets of several flavours. All are good sets; `damage` spoils them.

use crate::model::{Basic, Division, Rule, Set};
use crate::rng::Rng;
use crate::slots::{maybe_brought_down, maybe_multiplied, rule_of};

/// What the sets of one script or call have in common: axes, and a pool of divisions,
/// so that joins meet equal divisions often.
pub struct World {
    pub n: usize,
    pool: Vec<Division>,
}

pub(crate) fn coefficients(rng: &mut Rng, count: usize, size: i64) -> [i16; 8] {
    let mut out = [0; 8];
    for place in out.iter_mut().take(count) {
        *place = rng.range(-size, size) as i16;
    }
    out
}

impl World {
    /// Mostly one to three axes; now and then up to eight.
    pub fn new(rng: &mut Rng) -> World {
        let n = if rng.chance(85) { 1 + rng.below(3) } else { 1 + rng.below(8) };
        World::with_axes(rng, n)
    }

    pub fn with_axes(rng: &mut Rng, n: usize) -> World {
        let division = |rng: &mut Rng| {
            let d = rng.range(1, 6) as u16;
            Division { d, c: rng.range(-5, 5) as i32, axes: coefficients(rng, n, 3) }
        };
        let pool = (0..4).map(|_| division(rng)).collect();
        World { n, pool }
    }

    fn rule(&self, rng: &mut Rng, divisions: usize, size: i64, constant: i64) -> Rule {
        let rule = Rule {
            equality: rng.chance(25),
            number: 0,
            constant: rng.range(-constant, constant) as i32,
            axes: coefficients(rng, self.n, size),
            divisions: coefficients(rng, divisions, size),
        };
        maybe_multiplied(rng, rule, 33)
    }

    /// Few rules with small numbers.
    pub(crate) fn small_basic(&self, rng: &mut Rng) -> Basic {
        let count = if rng.chance(50) { 0 } else { 1 + rng.below(2) };
        let divisions = (0..count).map(|_| rng.pick(&self.pool)).collect();
        let rules = (0..rng.below(5)).map(|_| self.rule(rng, count, 3, 9)).collect();
        Basic { divisions, rules }
    }

    pub fn small(&self, rng: &mut Rng) -> Set {
        (0..rng.below(4)).map(|_| self.small_basic(rng)).collect()
    }

    /// Basic sets of two rules or fewer, which hold many points and overlap.
    pub fn loose(&self, rng: &mut Rng) -> Set {
        let mut set = [self.small(rng), self.small(rng)].concat();
        set.iter_mut().for_each(|basic| basic.rules.truncate(2));
        set
    }

    /// Low and high of each axis; a point where both are one number.
    pub fn boxed(&self, rng: &mut Rng) -> Basic {
        let mut rules = Vec::new();
        for axis in 0..self.n {
            let low = rng.range(-4, 4) as i32;
            let mut axes = [0; 8];
            axes[axis] = 1;
            let rule = Rule { equality: rng.chance(30), constant: -low, ..rule_of(axes) };
            rules.push(rule);
            if !rule.equality {
                axes[axis] = -1;
                rules.push(Rule { constant: low + rng.range(0, 5) as i32, axes, ..rule });
            }
        }
        Basic { divisions: Vec::new(), rules }
    }

    /// Many rules over few axes: many pivots.
    pub fn dense(&self, rng: &mut Rng) -> Basic {
        let count = rng.below(3);
        let divisions = (0..count).map(|_| rng.pick(&self.pool)).collect();
        let rule = |rng: &mut Rng| Rule { equality: rng.chance(3), ..self.rule(rng, count, 4, 60) };
        let rules = (0..4 + rng.below(20)).map(|_| rule(rng)).collect();
        Basic { divisions, rules }
    }

    /// Numbers near the ends of their ranges, so that the test becomes wide at 64 bits, and at times at 128.
    pub fn wide(&self, rng: &mut Rng) -> Basic {
        let count = rng.below(3);
        let mut basic = Basic::default();
        for _ in 0..count {
            let d = rng.pick(&[1, 2, 999, 32_766, 32_767]);
            let c = rng.pick(&[0, 1, -1_000_000_000, 1_000_000_000, 999_999_937]);
            basic.divisions.push(Division { d, c, axes: large(rng, self.n) });
        }
        for _ in 0..1 + rng.below(5) {
            let equality = rng.chance(25);
            let end = rng.pick(&[i32::MIN, i32::MIN + 1, i32::MAX, i32::MAX - 1, -65_537, 7]);
            let constant = if equality { end.max(-i32::MAX) } else { end };
            let (axes, divisions) = (large(rng, self.n), large(rng, count));
            let rule = Rule { equality, number: 0, constant, axes, divisions };
            basic.rules.push(maybe_brought_down(rng, rule, 33));
        }
        basic
    }

    /// One side of one axis; many of these make many pieces without making many tests slow.
    pub(crate) fn side(&self, rng: &mut Rng) -> Rule {
        let mut axes = [0; 8];
        axes[rng.below(self.n.min(2))] = rng.pick(&[-1, 1]);
        Rule { equality: rng.chance(5), constant: rng.range(-20, 20) as i32, ..rule_of(axes) }
    }

    /// Close to 32 basic sets, to 8 divisions or to 48 rules; `over` allows one too many.
    pub fn near_limit(&self, rng: &mut Rng, over: bool) -> Set {
        let more = usize::from(over && rng.chance(30));
        match rng.below(4) {
            0 => {
                let count = rng.pick(&[8, 15, 16, 17, 31, 32]) + more;
                let basic = |rng: &mut Rng| Basic { divisions: Vec::new(), rules: (0..rng.below(2)).map(|_| self.side(rng)).collect() };
                (0..count).map(|_| basic(rng)).collect()
            }
            1 => {
                let count = rng.pick(&[3, 4, 5, 7, 8]) + more;
                let mut basic = self.small_basic(rng);
                basic.divisions = (0..count).map(|i| Division { d: 2 + (i % 5) as u16, ..rng.pick(&self.pool) }).collect();
                for rule in &mut basic.rules {
                    rule.divisions = coefficients(rng, count.min(8), 2);
                }
                vec![basic]
            }
            2 => {
                let count = rng.pick(&[23, 24, 25, 46, 47, 48]) + more;
                vec![Basic { divisions: Vec::new(), rules: (0..count).map(|_| self.side(rng)).collect() }]
            }
            _ => {
                let rules = rng.pick(&[12, 13, 20, 27]);
                let basic = |rng: &mut Rng| Basic { divisions: Vec::new(), rules: (0..rules).map(|_| self.side(rng)).collect() };
                (0..rng.pick(&[7, 8, 9, 12]) + more).map(|_| basic(rng)).collect()
            }
        }
    }

    /// A rule-less set, small sets, boxes, alternating slots, wide and dense ones.
    pub fn any(&self, rng: &mut Rng) -> Set {
        match rng.below(24) {
            0 => vec![Basic::default()],
            1..=10 => self.small(rng),
            11..=14 => (0..1 + rng.below(3)).map(|_| self.boxed(rng)).collect(),
            15..=16 => vec![self.wide(rng)],
            17 => vec![self.wide(rng), self.small_basic(rng)],
            18..=21 => self.slots(rng),
            _ => vec![self.dense(rng)],
        }
    }
}

/// Coefficients of which some are as large as may be.
fn large(rng: &mut Rng, count: usize) -> [i16; 8] {
    let mut out = [0; 8];
    for place in out.iter_mut().take(count) {
        *place = match rng.below(4) {
            0 => 0,
            1 => rng.range(-3, 3) as i16,
            2 => rng.pick(&[-32_767, 32_767, 32_766, -32_765]),
            _ => rng.range(-32_767, 32_767) as i16,
        };
    }
    out
}
