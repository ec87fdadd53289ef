//! "Points, rules, sets": the objects and what they mean.

use crate::exact::{add, floor_div, mul};

pub const MAX_AXES: usize = 8;
pub const MAX_DIVISIONS: usize = 8;
pub const MAX_RULES: usize = 48;
pub const MAX_BASIC_SETS: usize = 32;

/// Eight coordinates; those of absent axes are 0.
pub type Point = [i32; MAX_AXES];

/// q = floor((axes · x + c) / d).
#[derive(Clone, Debug, PartialEq, Eq, Hash)]
pub struct Division {
    pub d: i64,
    pub c: i64,
    pub axes: [i64; MAX_AXES],
}

#[derive(Clone, Copy, Debug, PartialEq, Eq, Hash)]
pub enum Kind {
    /// expression = 0
    Equality,
    /// expression ≥ 0
    Inequality,
}

/// constant + axes · x + divs · q, with its kind.
#[derive(Clone, Debug, PartialEq, Eq, Hash)]
pub struct Rule {
    pub kind: Kind,
    /// Its own number "in the mine's rulebook" (request 6), 0 for none. No
    /// answer depends on it but that the rule is written with it.
    pub number: u16,
    pub constant: i64,
    pub axes: [i64; MAX_AXES],
    pub divs: [i64; MAX_DIVISIONS],
}

#[derive(Clone, Debug, Default, PartialEq, Eq, Hash)]
pub struct BasicSet {
    pub divisions: Vec<Division>,
    pub rules: Vec<Rule>,
}

/// A list of basic sets over n axes.
#[derive(Clone, Debug, PartialEq, Eq, Hash)]
pub struct Set {
    pub n: usize,
    pub basics: Vec<BasicSet>,
}

fn dot(coefficients: &[i64], values: &[i128]) -> i128 {
    coefficients
        .iter()
        .zip(values)
        .fold(0, |sum, (&k, &v)| add(sum, mul(i128::from(k), v)))
}

impl Division {
    pub fn value(&self, x: &[i128]) -> i128 {
        let numerator = add(i128::from(self.c), dot(&self.axes, x));
        floor_div(numerator, i128::from(self.d))
    }
}

impl Rule {
    /// The expression's value at axis values x and division values q.
    pub fn value(&self, x: &[i128], q: &[i128]) -> i128 {
        let by_axes = add(i128::from(self.constant), dot(&self.axes, x));
        add(by_axes, dot(&self.divs, q))
    }

    pub fn holds(&self, x: &[i128], q: &[i128]) -> bool {
        let value = self.value(x, q);
        match self.kind {
            Kind::Equality => value == 0,
            Kind::Inequality => value >= 0,
        }
    }
}

impl BasicSet {
    /// "a point is in it when all rules hold with the divisions worked out
    /// from the point"
    pub fn holds(&self, point: &Point) -> bool {
        let x = point.map(i128::from);
        let q: Vec<i128> = self.divisions.iter().map(|d| d.value(&x)).collect();
        self.rules.iter().all(|rule| rule.holds(&x, &q))
    }
}

impl Set {
    /// The set without points.
    pub fn empty(n: usize) -> Set {
        Set { n, basics: Vec::new() }
    }

    /// The set of every point: one basic set without rules.
    pub fn everything(n: usize) -> Set {
        Set { n, basics: vec![BasicSet::default()] }
    }

    pub fn holds(&self, point: &Point) -> bool {
        self.basics.iter().any(|basic| basic.holds(point))
    }

    /// Basic set number k, from 1.
    pub fn basic(&self, k: u64) -> Option<&BasicSet> {
        let index = usize::try_from(k).ok()?.checked_sub(1)?;
        self.basics.get(index)
    }
}
