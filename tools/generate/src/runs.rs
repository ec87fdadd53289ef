//! Searches in which many values of one axis fail one after another, and limits that fall among these.

use crate::histogram::{bump, Counts};
use crate::model::{encode, Basic, Division, Rule, Set};
use crate::queries::any_limit;
use crate::rng::Rng;
use crate::slots::rule_of;
use second::ask::{failing_rule, walk, Sides, LARGEST_LIMIT};
use second::{BasicSet, Kind};

/// The events that have to occur, of runs of at least `LONG` values. A rule is named by what of it moves with the axis.
pub const EVENTS: [&str; 12] = [
    "run of a linear rule",
    "run of one division",
    "run of two divisions",
    "run of axis and division",
    "run of a rule that does not move",
    "run of an equality too low",
    "run of an equality too high",
    "run of several basic sets",
    "run up to a prefix that passes",
    "run to the end of a side",
    "limit inside a run",
    "limit at the end of a run",
];

pub(crate) const LONG: u32 = 16;

/// Values of one axis, one after the other, that fail: the first prefix, the numbers of the first and the last among
/// the prefixes tested, and whether the last is that of the side.
struct Run {
    prefix: Vec<i32>,
    first: u32,
    last: u32,
    ends_side: bool,
}

/// The long runs of a search, and how many prefixes it tests.
fn runs(set: &second::Set, sides: &Sides, limit: u32) -> (Vec<Run>, u32) {
    let mut all: Vec<Run> = Vec::new();
    let mut tested = 0;
    walk(set, sides, limit, &mut |prefix, passes| {
        tested += 1;
        let axis = prefix.len() - 1;
        let ends_side = prefix[axis] == sides.high[axis];
        match all.last_mut() {
            _ if passes => {}
            Some(run) if run.last + 1 == tested && run.prefix.len() == prefix.len() && !run.ends_side => {
                run.last = tested;
                run.ends_side = ends_side;
            }
            _ => all.push(Run { prefix: prefix.to_vec(), first: tested, last: tested, ends_side }),
        }
    });
    all.retain(|run| run.last - run.first + 1 >= LONG);
    (all, tested)
}

/// Whether a search has a long run.
pub(crate) fn any_long(set: &second::Set, sides: &Sides, limit: u32) -> bool {
    !runs(set, sides, limit).0.is_empty()
}

/// What of a failing rule moves with the axis.
fn moving(basic: &BasicSet, rule: usize, axis: usize) -> &'static str {
    let rule = &basic.rules[rule];
    let moves = |(place, division): &(usize, &second::Division)| rule.divs[*place] != 0 && division.axes[axis] != 0;
    match (rule.axes[axis] != 0, basic.divisions.iter().enumerate().filter(moves).count()) {
        (false, 0) => "run of a rule that does not move",
        (true, 0) => "run of a linear rule",
        (false, 1) => "run of one division",
        (false, _) => "run of two divisions",
        (true, _) => "run of axis and division",
    }
}

/// Counts a run by the rules that fail at its first prefix.
fn count_rules(set: &second::Set, sides: &Sides, run: &Run, counts: &mut Counts) {
    if set.basics.len() > 1 {
        bump(counts, "run of several basic sets");
    }
    for basic in &set.basics {
        let Some(rule) = failing_rule(set.n, basic, sides, &run.prefix) else { continue };
        bump(counts, moving(basic, rule, run.prefix.len() - 1));
        if basic.rules[rule].kind == Kind::Equality {
            let mut lower = BasicSet { divisions: basic.divisions.clone(), rules: vec![basic.rules[rule].clone()] };
            lower.rules[0].kind = Kind::Inequality;
            let low = failing_rule(set.n, &lower, sides, &run.prefix).is_some();
            bump(counts, if low { "run of an equality too low" } else { "run of an equality too high" });
        }
    }
}

/// Counts the runs of a search, and where its limit falls. One prefix past the limit tells whether a run goes on there.
pub fn count(set: &second::Set, sides: &Sides, limit: u32, counts: &mut Counts) {
    let (runs, tested) = runs(set, sides, (limit + 1).min(LARGEST_LIMIT));
    for run in &runs {
        count_rules(set, sides, run, counts);
        match (run.last.cmp(&limit), run.ends_side) {
            (std::cmp::Ordering::Greater, _) => bump(counts, "limit inside a run"),
            (std::cmp::Ordering::Equal, _) if limit < tested => bump(counts, "limit at the end of a run"),
            (_, true) => bump(counts, "run to the end of a side"),
            (_, false) => bump(counts, "run up to a prefix that passes"),
        }
    }
}

/// A limit in a long run of the search, at its first or last prefix, or beside these; or at the tally.
fn limit(rng: &mut Rng, set: &second::Set, sides: &Sides) -> u32 {
    let (runs, tested) = runs(set, sides, LARGEST_LIMIT);
    let beside_tally = rng.pick(&[tested - 1, tested, tested + 1]);
    let limit = match runs.len() {
        0 => beside_tally,
        count => {
            let Run { first, last, .. } = runs[rng.below(count)];
            let any = rng.range(first.into(), last.into()) as u32;
            rng.pick(&[any, any, any, first, last - 1, last, last, last, last + 1, beside_tally])
        }
    };
    limit.clamp(1, LARGEST_LIMIT)
}

/// A rule that fails for many values of the axis, from one end of its side or to the other.
fn rule(rng: &mut Rng, axis: usize, divisions: &mut Vec<Division>) -> Rule {
    let mut rule = Rule { equality: rng.chance(35), ..rule_of([0; 8]) };
    let target = rng.range(-100, 1_500);
    let mut value = 0;
    let (linear, count) = rng.pick(&[(true, 0), (true, 0), (false, 1), (false, 1), (false, 1), (false, 2), (true, 1)]);
    if linear {
        let a = rng.pick(&[-7, -2, -1, 1, 1, 2, 3]);
        rule.axes[axis] = a;
        value += i64::from(a) * target;
    }
    for _ in 0..count {
        let (d, b) = (rng.pick(&[2, 7, 30, 97, 480, 32_767]), rng.pick(&[-3, -1, 1, 1, 2]));
        let mut axes = [0; 8];
        axes[axis] = b;
        let a = rng.pick(&[-5, -1, 1, 1, 2]);
        rule.divisions[divisions.len()] = a;
        divisions.push(Division { d, c: rng.range(-50, 50) as i32, axes });
        value += i64::from(a) * (i64::from(b) * target).div_euclid(i64::from(d));
    }
    rule.constant = (rng.range(-2, 2) - value) as i32;
    rule
}

fn basic(rng: &mut Rng, n: usize, axis: usize) -> Basic {
    let mut basic = Basic::default();
    for _ in 0..1 + rng.below(3) {
        let long = rule(rng, axis, &mut basic.divisions);
        basic.rules.push(long);
    }
    if rng.chance(30) {
        let mut axes = [0; 8];
        axes[rng.below(n)] = rng.pick(&[-1, 1, 2]);
        basic.rules.push(Rule { constant: rng.range(-2, 5) as i32, ..rule_of(axes) });
    }
    basic
}

/// A search over one to three axes: the set, and a box of which one side is long, with a limit mostly in a run.
pub fn search(rng: &mut Rng) -> (usize, Set, Sides, u32) {
    let n = 1 + rng.below(3);
    let axis = rng.below(n);
    let set: Set = (0..1 + rng.below(3)).map(|_| basic(rng, n, axis)).collect();
    let mut sides = Sides { low: [0; 8], high: [0; 8] };
    for i in 0..n {
        let widest = if i != axis { 3 } else if n == 1 { 4_000 } else { 400 };
        sides.low[i] = rng.range(-50, 20) as i32;
        sides.high[i] = sides.low[i] + rng.range(widest / 20, widest) as i32;
    }
    let limit = match second::parse(n as u8, &encode(&set)) {
        Ok(set) if rng.chance(80) => limit(rng, &set, &sides),
        _ => any_limit(rng),
    };
    (n, set, sides, limit)
}
