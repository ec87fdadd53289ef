//! "Scale readings as ranges" (request 5): whether every point of a box is in a set, or none is, or it depends.

use crate::algebra::{difference, unwatched};
use crate::ask::{check_corners, check_limit, search, Search, Sides};
use crate::model::{BasicSet, Kind, Rule, Set, MAX_AXES, MAX_DIVISIONS};
use crate::refusal;

#[derive(Clone, Debug, PartialEq, Eq)]
pub enum Range {
    Sure,
    Never,
    /// The first point in the set and the first outside it.
    Depends(Vec<i32>, Vec<i32>),
    /// The first search that ran out.
    Spent(Searched),
}

/// What is searched, in this order.
#[derive(Clone, Copy, Debug, PartialEq, Eq)]
pub enum Searched {
    Set,
    Difference,
}

/// "each with its own limit": the prefixes that either search may test.
#[derive(Clone, Copy, Debug, PartialEq, Eq)]
pub struct Limits {
    pub set: u32,
    pub difference: u32,
}

/// "The box is axis − low ≥ 0, high − axis ≥ 0, axis by axis". No rulebook has
/// these rules: they have no number (request 6).
pub fn box_set(n: usize, sides: &Sides) -> Set {
    let rule = |axis: usize, coefficient: i64, constant: i32| {
        let mut axes = [0; MAX_AXES];
        axes[axis] = coefficient;
        Rule { kind: Kind::Inequality, number: 0, constant: constant.into(), axes, divs: [0; MAX_DIVISIONS] }
    };
    let both = |axis: usize| [rule(axis, 1, -sides.low[axis]), rule(axis, -1, sides.high[axis])];
    Set { n, basics: vec![BasicSet { divisions: Vec::new(), rules: (0..n).flat_map(both).collect() }] }
}

/// Refusal 12: as the search's, and a low over its high, since "the range
/// question of the scales still refuses such a box" (request 7).
pub fn check_box(n: usize, sides: &Sides) -> Result<(), u8> {
    check_corners(n, sides)?;
    if sides.is_shut() {
        return Err(refusal::COORDINATE);
    }
    Ok(())
}

/// The range, and "the difference of the box and the set"; or 12, 13 or 10.
pub fn range(set: &Set, sides: &Sides, limits: Limits) -> Result<(Range, Set), u8> {
    check_box(set.n, sides)?;
    check_limit(limits.set)?;
    check_limit(limits.difference)?;
    let outside = difference(&box_set(set.n, sides), set, &mut unwatched)?;
    let first = search(set, sides, limits.set)?;
    let then = search(&outside, sides, limits.difference)?;
    Ok((told(first, then), outside))
}

/// What the searches of the set and of the difference tell together.
fn told(first: Search, then: Search) -> Range {
    match (first, then) {
        // "when either runs out the answer is `spent`", whatever the other one found.
        (Search::Spent(_), _) => Range::Spent(Searched::Set),
        (_, Search::Spent(_)) => Range::Spent(Searched::Difference),
        (Search::At(inside, _), Search::At(outside, _)) => Range::Depends(inside, outside),
        (Search::At(..), Search::None(_)) => Range::Sure,
        (Search::None(_), Search::At(..)) => Range::Never,
        (Search::None(_), Search::None(_)) => unreachable!("no low is over its high: the box has a point"),
    }
}
