//! "Asking": member, first point, part of a table.

use crate::bytes::{basic_length, parse};
use crate::exact::{add, floor_div, mul};
use crate::model::{BasicSet, Division, Kind, Point, Rule, Set, MAX_AXES};
use crate::refusal;

pub const FARTHEST: i32 = 1_048_576;
pub const LARGEST_LIMIT: u32 = 1_000_000;

/// Low and high of each axis.
#[derive(Clone, Copy, Debug, PartialEq, Eq)]
pub struct Sides {
    pub low: Point,
    pub high: Point,
}

#[derive(Clone, Debug, PartialEq, Eq)]
pub enum Search {
    /// The n coordinates of the first point, and the prefixes tested.
    At(Vec<i32>, u32),
    None(u32),
    Spent(u32),
}

/// The place of a basic set in its table; the empty part is 0, 0.
#[derive(Clone, Copy, Debug, Default, PartialEq, Eq)]
pub struct Part {
    pub offset: usize,
    pub length: usize,
}

/// Which of two tables a part is of.
#[derive(Clone, Copy, Debug, PartialEq, Eq)]
pub enum Table {
    First,
    Second,
}

/// Refusal 12 for one point: out of range, or an absent axis not 0.
pub fn check_point(n: usize, point: &Point) -> Result<(), u8> {
    let in_range = |x: &i32| (-FARTHEST..=FARTHEST).contains(x);
    if point.iter().all(in_range) && point[n..].iter().all(|&x| x == 0) {
        Ok(())
    } else {
        Err(refusal::COORDINATE)
    }
}

impl Sides {
    /// "whose low is over its high" (document 02, request 7), on whichever axis.
    pub fn is_shut(&self) -> bool {
        (0..MAX_AXES).any(|i| self.low[i] > self.high[i])
    }

    /// How many values the side of an axis, from 0, has.
    pub fn values(&self, axis: usize) -> u64 {
        let above = i64::from(self.high[axis]) - i64::from(self.low[axis]);
        u64::try_from(above + 1).unwrap_or(0)
    }
}

/// Refusal 12 for a search's lows and highs, which may be the wrong way round.
pub fn check_corners(n: usize, sides: &Sides) -> Result<(), u8> {
    check_point(n, &sides.low)?;
    check_point(n, &sides.high)
}

/// Refusal 13.
pub fn check_limit(limit: u32) -> Result<(), u8> {
    if (1..=LARGEST_LIMIT).contains(&limit) {
        Ok(())
    } else {
        Err(refusal::LIMIT)
    }
}

/// Whether the point is in the set, or 12.
pub fn member(set: &Set, point: &Point) -> Result<bool, u8> {
    check_point(set.n, point)?;
    Ok(set.holds(point))
}

/// The first point of the set in the box, or 12 or 13.
pub fn search(set: &Set, sides: &Sides, limit: u32) -> Result<Search, u8> {
    check_corners(set.n, sides)?;
    check_limit(limit)?;
    if sides.is_shut() {
        return Ok(Search::None(0));
    }
    Ok(walk(set, sides, limit, &mut |_, _| ()))
}

/// The search of a box that is not shut, each prefix shown to `watch` with whether it passes.
pub fn walk(set: &Set, sides: &Sides, limit: u32, watch: &mut dyn FnMut(&[i32], bool)) -> Search {
    let mut first = None;
    let (ending, tested) = prefixes(set, sides, limit, &mut |prefix, passes| {
        watch(prefix, passes);
        if passes && prefix.len() == set.n {
            first = Some(prefix.to_vec());
        }
        first.is_some()
    });
    match (first, ending) {
        (Some(point), _) => Search::At(point, tested),
        (None, Ending::Spent) => Search::Spent(tested),
        (None, _) => Search::None(tested),
    }
}

/// Why a walk ends: it was told to, no prefix is left, or the limit was tested and a prefix is left.
#[derive(Clone, Copy, Debug, PartialEq, Eq)]
pub enum Ending {
    Told,
    Done,
    Spent,
}

/// Prefixes of a box that is not shut, in dictionary order, going below passing ones only; the empty one is not tested
/// (reading 13). `visit` is shown each with whether it passes and says whether the walk ends there. With the ending
/// comes the number of prefixes tested.
pub fn prefixes(set: &Set, sides: &Sides, limit: u32, visit: &mut dyn FnMut(&[i32], bool) -> bool) -> (Ending, u32) {
    let sparse: Vec<SparseBasic> = set.basics.iter().map(SparseBasic::new).collect();
    let mut open = OpenBox::new(set.n, sides);
    let mut prefix = vec![sides.low[0]];
    let mut tested = 0;
    while !prefix.is_empty() {
        // A prefix is still to be tested: no answer is known yet.
        if tested == limit {
            return (Ending::Spent, tested);
        }
        tested += 1;
        open.close_first(&prefix);
        let passes = sparse.iter().any(|basic| basic.failing(&mut open).is_none());
        if visit(&prefix, passes) {
            return (Ending::Told, tested);
        }
        if passes && prefix.len() < set.n {
            prefix.push(sides.low[prefix.len()]);
        } else {
            go_on(&mut prefix, sides);
        }
    }
    (Ending::Done, tested)
}

/// The place of the first rule of a basic set that cannot hold below a prefix.
pub fn failing_rule(n: usize, basic: &BasicSet, sides: &Sides, prefix: &[i32]) -> Option<usize> {
    let mut open = OpenBox::new(n, sides);
    open.close_first(prefix);
    SparseBasic::new(basic).failing(&mut open)
}

/// The next prefix that is not below this one; empty when there is none.
fn go_on(prefix: &mut Vec<i32>, sides: &Sides) {
    while let Some(last) = prefix.pop() {
        if last < sides.high[prefix.len()] {
            prefix.push(last + 1);
            return;
        }
    }
}

/// Least and greatest value.
type Interval = (i128, i128);

/// The interval of each axis, and room for those of the divisions.
struct OpenBox {
    whole: Vec<Interval>,
    axes: Vec<Interval>,
    divisions: Vec<Interval>,
}

impl OpenBox {
    fn new(n: usize, sides: &Sides) -> OpenBox {
        let side = |i: usize| (i128::from(sides.low[i]), i128::from(sides.high[i]));
        let whole: Vec<Interval> = (0..n).map(side).collect();
        OpenBox { axes: whole.clone(), whole, divisions: Vec::new() }
    }

    /// The prefix's axes are closed, "each open axis takes its whole side".
    fn close_first(&mut self, prefix: &[i32]) {
        self.axes.copy_from_slice(&self.whole);
        for (axis, &x) in self.axes.iter_mut().zip(prefix) {
            *axis = (i128::from(x), i128::from(x));
        }
    }
}

/// The places with nonzero coefficients.
type Terms = Vec<(usize, i128)>;

fn terms(coefficients: &[i64]) -> Terms {
    let wide = coefficients.iter().map(|&k| i128::from(k));
    wide.enumerate().filter(|&(_, k)| k != 0).collect()
}

/// Least and greatest value of start + terms, each place by itself.
fn range(start: Interval, terms: &Terms, places: &[Interval]) -> Interval {
    terms.iter().fold(start, |(least, greatest), &(place, k)| {
        let (low, high) = places[place];
        let (down, up) = if k > 0 { (low, high) } else { (high, low) };
        (add(least, mul(k, down)), add(greatest, mul(k, up)))
    })
}

/// A basic set with its zeros left out, for the speed of the walk.
struct SparseBasic {
    divisions: Vec<SparseDivision>,
    rules: Vec<SparseRule>,
}

struct SparseDivision {
    d: i128,
    c: i128,
    axes: Terms,
}

struct SparseRule {
    kind: Kind,
    constant: i128,
    axes: Terms,
    divs: Terms,
}

impl SparseDivision {
    fn new(division: &Division) -> SparseDivision {
        SparseDivision {
            d: i128::from(division.d),
            c: i128::from(division.c),
            axes: terms(&division.axes),
        }
    }

    /// "the floors of its numerator's least and greatest value"
    fn range(&self, axes: &[Interval]) -> Interval {
        let (least, greatest) = range((self.c, self.c), &self.axes, axes);
        (floor_div(least, self.d), floor_div(greatest, self.d))
    }
}

impl SparseRule {
    fn new(rule: &Rule) -> SparseRule {
        SparseRule {
            kind: rule.kind,
            constant: i128::from(rule.constant),
            axes: terms(&rule.axes),
            divs: terms(&rule.divs),
        }
    }

    /// Each rule by itself, each axis and division by itself (reading 14).
    fn can_hold(&self, open: &OpenBox) -> bool {
        let by_axes = range((self.constant, self.constant), &self.axes, &open.axes);
        let (least, greatest) = range(by_axes, &self.divs, &open.divisions);
        match self.kind {
            Kind::Equality => least <= 0 && 0 <= greatest,
            Kind::Inequality => greatest >= 0,
        }
    }
}

impl SparseBasic {
    fn new(basic: &BasicSet) -> SparseBasic {
        SparseBasic {
            divisions: basic.divisions.iter().map(SparseDivision::new).collect(),
            rules: basic.rules.iter().map(SparseRule::new).collect(),
        }
    }

    /// The place of the first rule that cannot hold.
    fn failing(&self, open: &mut OpenBox) -> Option<usize> {
        open.divisions.clear();
        for division in &self.divisions {
            open.divisions.push(division.range(&open.axes));
        }
        self.rules.iter().position(|rule| !rule.can_hold(open))
    }
}

/// Where basic set number k, from 1, lies in the set's bytes.
fn part_of(set: &Set, k: u64) -> Option<Part> {
    let index = usize::try_from(k).ok()?.checked_sub(1)?;
    let basic = set.basics.get(index)?;
    let offset = set.basics[..index].iter().map(basic_length).sum();
    Some(Part { offset, length: basic_length(basic) })
}

/// "Basic set number k (from 1) is handed back as the very part of the lent
/// table that holds it"; no such one, or a bad input: the empty part.
pub fn part(n: u8, bytes: &[u8], k: u64) -> Part {
    let found = parse(n, bytes).ok().and_then(|set| part_of(&set, k));
    found.unwrap_or_default()
}

/// "Of two sets, the first basic set that holds a point, the first table
/// before the second". Bad bytes in either table count (reading 17).
pub fn holder(n: u8, first: &[u8], second: &[u8], point: &Point) -> (Table, Part) {
    let nobody = (Table::First, Part::default());
    let (Ok(a), Ok(b)) = (parse(n, first), parse(n, second)) else {
        return nobody;
    };
    if check_point(a.n, point).is_err() {
        return nobody;
    }
    if let Some(part) = holding_part(&a, point) {
        return (Table::First, part);
    }
    match holding_part(&b, point) {
        Some(part) => (Table::Second, part),
        None => nobody,
    }
}

fn holding_part(set: &Set, point: &Point) -> Option<Part> {
    let index = set.basics.iter().position(|basic| basic.holds(point))?;
    part_of(set, index as u64 + 1)
}
