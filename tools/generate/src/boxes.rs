//! Sets and boxes for the range (document 02, request 5): every answer as often as the others, boxes at the ends of the
//! axes, sets with pieces that have no point, and differences about 10's limits.

use crate::model::{encode, Basic, Division, Rule, Set};
use crate::rng::Rng;
use crate::runs;
use crate::sets::World;
use crate::slots::{rule_of, unit};
use hexscript::layout::MOST_BASIC_SETS;
use second::ask::{Sides, FARTHEST, LARGEST_LIMIT};
use second::parse;
use second::range::{range, Limits, Range};

/// How often another set and another box are tried for an answer.
const TRIES: usize = 12;
const LARGEST_DIVISION_CONSTANT: i32 = 1_000_000_000;

/// A set and the box that is asked of.
pub struct Question {
    pub n: usize,
    pub set: Set,
    pub sides: Sides,
}

/// The answers that a question can have with limits that are enough.
#[derive(Clone, Copy, PartialEq)]
enum Aim {
    Sure,
    Never,
    Depends,
}

fn any_set(rng: &mut Rng, world: &World) -> Set {
    match rng.below(24) {
        0 => Set::new(),
        1 => vec![Basic::default()],
        2..=5 => (0..1 + rng.below(3)).map(|_| world.boxed(rng)).collect(),
        6 | 7 => world.slots(rng),
        8 => world.near_limit(rng, false),
        9..=16 => world.loose(rng),
        _ => world.any(rng),
    }
}

/// A box about the sets, of one point, of a few values on each side, or longer ones.
fn any_sides(rng: &mut Rng, n: usize) -> Sides {
    let longest = match (rng.below(10), n) {
        (0, _) => 1,
        (1..=5, 1..=3) => 3,
        (_, 1) => 20,
        (_, 2) => 9,
        (_, 3) => 5,
        _ => 2,
    };
    let mut sides = Sides { low: [0; 8], high: [0; 8] };
    for axis in 0..n {
        sides.low[axis] = rng.range(-8, 5) as i32;
        sides.high[axis] = sides.low[axis] + rng.range(0, longest - 1) as i32;
    }
    sides
}

fn answer(n: usize, set: &Set, sides: &Sides) -> Option<Aim> {
    let set = parse(n as u8, &encode(set)).ok()?;
    match range(&set, sides, Limits { set: LARGEST_LIMIT, difference: LARGEST_LIMIT }).ok()?.0 {
        Range::Sure => Some(Aim::Sure),
        Range::Never => Some(Aim::Never),
        Range::Depends(..) => Some(Aim::Depends),
        Range::Spent(_) => None,
    }
}

/// Each answer about as often as the others: a few tries give depends less often than it is aimed at.
fn aimed(rng: &mut Rng, world: &World) -> Question {
    let aim = rng.pick(&[Aim::Sure, Aim::Sure, Aim::Never, Aim::Never, Aim::Depends, Aim::Depends, Aim::Depends]);
    let mut asked = Question { n: world.n, set: any_set(rng, world), sides: any_sides(rng, world.n) };
    for _ in 0..TRIES {
        if answer(asked.n, &asked.set, &asked.sides) == Some(aim) {
            break;
        }
        asked = Question { n: world.n, set: any_set(rng, world), sides: any_sides(rng, world.n) };
    }
    asked
}

/// The set with every point moved so far; nothing where a number would leave its range.
pub fn moved(set: &Set, by: &[i32; 8]) -> Option<Set> {
    let along = |axes: &[i16; 8]| axes.iter().zip(by).map(|(&k, &by)| i64::from(k) * i64::from(by)).sum::<i64>();
    let mut set = set.clone();
    for basic in &mut set {
        for division in &mut basic.divisions {
            let c = i64::from(division.c) - along(&division.axes);
            division.c = i32::try_from(c).ok().filter(|c| c.abs() <= LARGEST_DIVISION_CONSTANT)?;
        }
        for rule in &mut basic.rules {
            let constant = i64::from(rule.constant) - along(&rule.axes);
            rule.constant = i32::try_from(constant).ok().filter(|&c| c != i32::MIN)?;
        }
    }
    Some(set)
}

/// The question moved to an end of every axis, where the set can be.
fn at_the_ends(rng: &mut Rng, asked: Question) -> Question {
    let (mut by, mut sides) = ([0; 8], asked.sides);
    for axis in 0..asked.n {
        by[axis] = rng.pick(&[FARTHEST - sides.high[axis], -FARTHEST - sides.low[axis]]);
        sides.low[axis] += by[axis];
        sides.high[axis] += by[axis];
    }
    match moved(&asked.set, &by) {
        Some(set) => Question { n: asked.n, set, sides },
        None => asked,
    }
}

/// Every point but (1/2, 1/2) and the like on two axes: x + y and x − y on either side of it. What is left of a box
/// about it has that one point with fractions.
pub fn all_but_a_half(rng: &mut Rng) -> Question {
    let n = 2 + rng.below(3);
    let (middle, other) = (rng.range(-3, 3) as i32, 1 + rng.below(n - 1));
    let lines = [(1, 2 * middle + 1), (-1, 0)];
    let mut set = Set::new();
    for (sign, value) in lines {
        let mut axes = unit(0);
        axes[other] = sign;
        let above = Rule { constant: -value - 1, ..rule_of(axes) };
        let below = Rule { constant: value - 1, ..rule_of(axes.map(|k| -k)) };
        set.extend([above, below].map(|rule| Basic { divisions: Vec::new(), rules: vec![rule] }));
    }
    let mut sides = any_sides(rng, n);
    for axis in [0, other] {
        sides.low[axis] = middle - rng.range(0, 2) as i32;
        sides.high[axis] = middle + 1 + rng.range(0, 2) as i32;
    }
    Question { n, set, sides }
}

/// About 32 rules of one basic set, each of which cuts a value off a side of the box, and now and then one more that
/// cuts nothing. With eight axes the box's rules and these are about 48.
fn stairs(rng: &mut Rng) -> Question {
    let n = if rng.chance(60) { 8 } else { 1 + rng.below(7) };
    let (axis, count) = (rng.below(n), rng.pick(&[31, 32, 33, 34]));
    let mut sides = any_sides(rng, n);
    sides.high[axis] = sides.low[axis] + count + rng.range(0, 3) as i32;
    let mut basic = Basic::default();
    for step in 1..=count {
        basic.rules.push(Rule { constant: -sides.low[axis] - step, ..rule_of(unit(axis)) });
    }
    if rng.chance(50) {
        let idle = Rule { constant: sides.high[axis], ..rule_of(unit(axis).map(|k| -k)) };
        basic.rules.insert(rng.pick(&[0, basic.rules.len()]), idle);
    }
    Question { n, set: vec![basic], sides }
}

/// About 32 basic sets of one rule over eight axes, of which each leaves a part of the box: what is left has 48 rules,
/// or one more where a basic set has two.
fn layers(rng: &mut Rng) -> Question {
    let n = 8;
    let (axis, other) = (rng.below(n), rng.below(n));
    let mut sides = any_sides(rng, n);
    sides.high[axis] = sides.low[axis] + rng.range(1, 3) as i32;
    let lower = |axis: usize, above: i32| Rule { constant: -sides.low[axis] - above, ..rule_of(unit(axis)) };
    let count = rng.pick(&[MOST_BASIC_SETS - 1, MOST_BASIC_SETS, MOST_BASIC_SETS]);
    let mut set = vec![Basic { divisions: Vec::new(), rules: vec![lower(axis, 1)] }; count];
    if rng.chance(50) {
        sides.high[other] = sides.high[other].max(sides.low[other] + 2);
        let at = rng.below(count);
        set[at].rules.push(lower(other, 2));
    }
    Question { n, set, sides }
}

/// As many points as 10's 32 pieces need to be parted by.
fn gaps(rng: &mut Rng) -> Question {
    let n = 1 + rng.below(2);
    let (axis, count) = (rng.below(n), rng.pick(&[30, 31, 31, 32]));
    let mut sides = any_sides(rng, n);
    sides.high[axis] = sides.low[axis] + 2 * count;
    let gap = |k: i32| Rule { equality: true, constant: -sides.low[axis] - 2 * k + 1, ..rule_of(unit(axis)) };
    let set = (1..=count).map(|k| Basic { divisions: Vec::new(), rules: vec![gap(k)] }).collect();
    Question { n, set, sides }
}

/// Basic sets with about 8 divisions together, each of which leaves a part of the box.
fn many_divisions(rng: &mut Rng, world: &World) -> Question {
    let (first, second) = world.about_eight(rng);
    let mut sides = any_sides(rng, world.n);
    for axis in 0..world.n.min(2) {
        (sides.low[axis], sides.high[axis]) = (-25, 22 + rng.range(0, 5) as i32);
    }
    Question { n: world.n, set: vec![first, second], sides }
}

/// Minutes and loads, the loads bound by the half hour, and a box that may pass from one half hour to the next.
fn half_hours(rng: &mut Rng) -> Question {
    let (period, last) = (rng.pick(&[10, 30, 97]), rng.range(2, 9) as i32);
    let division = Division { d: period, c: rng.range(-5, 5) as i32, axes: unit(0) };
    let by_division = |constant: i32, q: i16, axes: [i16; 8]| {
        let mut rule = Rule { constant, ..rule_of(axes) };
        rule.divisions[0] = q;
        rule
    };
    let heavy = by_division(rng.range(0, 60) as i32, -rng.pick(&[1, 3]), unit(1).map(|k| -k));
    let rules = vec![by_division(0, 1, [0; 8]), by_division(last, -1, [0; 8]), heavy];
    let mut sides = any_sides(rng, 2);
    sides.low[0] = rng.range(-3, 3) as i32 + i32::from(period) * rng.range(0, i64::from(last)) as i32;
    sides.high[0] = sides.low[0] + rng.range(0, 2 * i64::from(period)) as i32;
    Question { n: 2, set: vec![Basic { divisions: vec![division], rules }], sides }
}

pub fn question(rng: &mut Rng, world: &World) -> Question {
    match rng.below(100) {
        0 => stairs(rng),
        1 => gaps(rng),
        2..=4 => layers(rng),
        5..=7 => many_divisions(rng, world),
        8..=10 => all_but_a_half(rng),
        11..=16 => half_hours(rng),
        17..=20 => {
            let (n, set, sides, _) = runs::search(rng);
            Question { n, set, sides }
        }
        21..=30 => {
            let asked = aimed(rng, world);
            at_the_ends(rng, asked)
        }
        _ => aimed(rng, world),
    }
}
