//! Calls of the count (document 02, request 12): sets, boxes, chosen axes and limits; and what such calls reach.

use crate::calls::{axes, bytes, point_words, tally};
use crate::histogram::{bump, Counts};
use crate::model::{Basic, Rule, Set};
use crate::queries::{any_box, any_limit, widest_box};
use crate::rng::Rng;
use crate::runs;
use crate::sets::World;
use crate::slots::{rule_of, unit};
use hexscript::tokens::unhex;
use second::algebra::tightened;
use second::ask::{check_corners, check_limit, prefixes, Ending, Sides, LARGEST_LIMIT};
use second::count::{check_axis, MOST_VALUES};
use second::{parse, refusal};

/// What has to occur: sets, chosen axes, refusals, boxes, limits, and runs of failing prefixes.
pub const EVENTS: [&str; 26] = [
    "no basic sets",
    "no rules",
    "a point in two basic sets",
    "fractions only",
    "points below 0",
    "the whole alone",
    "first axis of several",
    "axis between",
    "last axis of several",
    "63 values",
    "64 values",
    "65 values",
    "axis 0",
    "axis n + 1",
    "shut on the chosen axis",
    "shut on another axis only",
    "corner out of range",
    "bad limit",
    "12 before 19",
    "19 before 13",
    "limit one below the tally",
    "limit at the tally",
    "limit one above the tally",
    "over 10,000 prefixes",
    "long run behind a member",
    "limit inside a long run",
];

const MANY: u32 = 10_000;

/// What is asked, the chosen axis from 1, or any number that is none.
struct Question {
    n: usize,
    set: Set,
    sides: Sides,
    axis: u64,
}

/// 2x = 1 and the like on one axis, in each basic set.
fn fractions_only(rng: &mut Rng, world: &World) -> Set {
    let axis = rng.below(world.n);
    let mut set = world.small(rng);
    set.push(Basic::default());
    for basic in &mut set {
        let constant = 2 * rng.range(-6, 6) as i32 + 1;
        let axes = unit(axis).map(|k| 2 * k);
        basic.rules.push(Rule { equality: true, constant, ..rule_of(axes) });
    }
    set
}

fn any_set(rng: &mut Rng, world: &World) -> Set {
    match rng.below(20) {
        0 => Set::new(),
        1 => vec![Basic::default(); 1 + rng.below(2)],
        2..=4 => (0..2 + rng.below(3)).map(|_| world.boxed(rng)).collect(),
        5 => fractions_only(rng, world),
        6 => world.near_limit(rng, false),
        7..=14 => world.loose(rng),
        _ => world.any(rng),
    }
}

/// The side of one axis has about as many values as a chosen one may have, the others have few.
fn about_64(rng: &mut Rng, n: usize) -> (Sides, usize) {
    let axis = rng.below(n);
    let mut sides = Sides { low: [0; 8], high: [0; 8] };
    for i in 0..n {
        let values = if i == axis { rng.pick(&[63, 64, 64, 65, 66]) } else { 1 + rng.below(2) };
        sides.low[i] = rng.range(-40, 4) as i32;
        sides.high[i] = sides.low[i] + values as i32 - 1;
    }
    (sides, axis)
}

/// Three sides of up to 40 values, or two of up to 300.
fn large(rng: &mut Rng) -> (usize, Sides) {
    let (n, widest) = rng.pick(&[(2, 300), (3, 40)]);
    let mut sides = Sides { low: [0; 8], high: [0; 8] };
    for i in 0..n {
        sides.low[i] = rng.range(-widest / 2, 0) as i32;
        sides.high[i] = sides.low[i] + rng.range(widest / 2, widest) as i32;
    }
    (n, sides)
}

/// Mostly an axis whose side is not too long, where there is one.
fn any_axis(rng: &mut Rng, n: usize, sides: &Sides) -> u64 {
    let short: Vec<usize> = (0..n).filter(|&axis| sides.values(axis) <= MOST_VALUES).collect();
    match rng.below(20) {
        0 => 0,
        1 => n as u64 + 1,
        2 => rng.pick(&[9, 255, u64::MAX]),
        3 => 1 + rng.below(n) as u64,
        _ if short.is_empty() => 1,
        _ => 1 + rng.pick(&short) as u64,
    }
}

fn question(rng: &mut Rng, world: &World) -> Question {
    let (n, set, sides) = match rng.below(100) {
        0 => {
            let (n, sides) = large(rng);
            let world = World::with_axes(rng, n);
            (n, any_set(rng, &world), sides)
        }
        1..=12 => {
            let (n, set, sides, _) = runs::search(rng);
            (n, set, sides)
        }
        13..=22 => {
            let (sides, axis) = about_64(rng, world.n);
            return Question { n: world.n, set: any_set(rng, world), sides, axis: 1 + axis as u64 };
        }
        _ => {
            let (low, high) = any_box(rng, world.n);
            (world.n, any_set(rng, world), Sides { low, high })
        }
    };
    let axis = any_axis(rng, n, &sides);
    Question { n, set, sides, axis }
}

/// A call of this kind, `count` or `counts`. Limits lie at the tally itself, one before or one behind, anywhere below
/// it, or anywhere; in the widest box only small ones do.
pub fn call(rng: &mut Rng, world: &World, kind: &str) -> String {
    let widest = rng.chance(4);
    let mut asked = question(rng, world);
    if widest {
        let (low, high) = widest_box(asked.n);
        asked.sides = Sides { low, high };
    }
    let (n, set) = (axes(rng, asked.n), bytes(rng, &asked.set, 5));
    let chosen = if kind == "counts" { format!(" {}", asked.axis) } else { String::new() };
    let sides = format!("{} {}", point_words(&asked.sides.low), point_words(&asked.sides.high));
    let line = |limit: u32| format!("{kind} {n} {set} {limit}{chosen} {sides}");
    if widest {
        return line(rng.range(1, 300) as u32);
    }
    let share = rng.below(10);
    if share < 3 {
        return line(any_limit(rng));
    }
    let tally = tally(&line(LARGEST_LIMIT));
    line(if share < 7 { (tally + rng.range(-1, 1)).max(0) } else { rng.range(1, tally.max(1)) } as u32)
}

/// A call of the count, read back; nothing where it is another call, or its set or its number of axes is bad.
struct Asked {
    set: second::Set,
    limit: u32,
    axis: Option<u64>,
    sides: Sides,
}

fn asked(call: &str) -> Option<Asked> {
    let words: Vec<&str> = call.split(' ').collect();
    let (axis, numbers) = match words[..] {
        ["count", _, _, _, ref numbers @ ..] => (None, numbers),
        ["counts", _, _, _, axis, ref numbers @ ..] => (Some(axis.parse().ok()?), numbers),
        _ => return None,
    };
    let set = parse(words[1].parse().ok()?, &unhex(words[2])?).ok()?;
    let numbers: Vec<i32> = numbers.iter().filter_map(|word| word.parse().ok()).collect();
    let eight = |at: usize| numbers.get(at..at + 8)?.try_into().ok();
    Some(Asked { set, limit: words[3].parse().ok()?, axis, sides: Sides { low: eight(0)?, high: eight(8)? } })
}

/// The number with which a call of a good set is refused.
fn refused(asked: &Asked) -> Option<u8> {
    let corners = check_corners(asked.set.n, &asked.sides);
    let axis = || asked.axis.map_or(Ok(0), |axis| check_axis(asked.set.n, &asked.sides, axis));
    corners.and_then(|()| axis()).and_then(|_| check_limit(asked.limit)).err()
}

fn count_refusal(asked: &Asked, number: u8, counts: &mut Counts) {
    let n = asked.set.n as u64;
    match (number, asked.axis) {
        (refusal::COORDINATE, axis) => {
            bump(counts, "corner out of range");
            if axis.is_some_and(|axis| axis == 0 || axis > n) {
                bump(counts, "12 before 19");
            }
        }
        (refusal::CHOSEN_AXIS, Some(axis)) => {
            if check_limit(asked.limit).is_err() {
                bump(counts, "19 before 13");
            }
            if axis == 0 {
                bump(counts, "axis 0");
            } else if axis == n + 1 {
                bump(counts, "axis n + 1");
            } else if axis <= n && asked.sides.values(axis as usize - 1) == MOST_VALUES + 1 {
                bump(counts, "65 values");
            }
        }
        _ => bump(counts, "bad limit"),
    }
}

/// Counts the set of a call that is not refused, and its chosen axis.
fn count_question(asked: &Asked, counts: &mut Counts) {
    let (n, basics) = (asked.set.n, &asked.set.basics);
    if basics.is_empty() {
        bump(counts, "no basic sets");
    } else if basics.iter().any(|basic| basic.rules.is_empty()) {
        bump(counts, "no rules");
    } else if basics.iter().all(|basic| basic.rules.iter().any(|rule| tightened(rule).is_none())) {
        bump(counts, "fractions only");
    }
    let Some(axis) = asked.axis.map(|axis| axis as usize - 1) else {
        return bump(counts, "the whole alone");
    };
    match (axis, axis + 1 == n) {
        _ if n == 1 => {}
        (0, _) => bump(counts, "first axis of several"),
        (_, true) => bump(counts, "last axis of several"),
        _ => bump(counts, "axis between"),
    }
    match asked.sides.values(axis) {
        values @ 63..=64 => bump(counts, &format!("{values} values")),
        0 => bump(counts, "shut on the chosen axis"),
        _ if asked.sides.is_shut() => bump(counts, "shut on another axis only"),
        _ => {}
    }
}

/// Walks the box of a call, one prefix past its limit, and counts what is met.
fn count_walk(asked: &Asked, counts: &mut Counts) {
    let Asked { set, limit, sides, .. } = asked;
    let (mut twice, mut below, mut behind) = (false, false, false);
    // The failing prefixes of one length up to now, and whether a member came right before the first of them.
    let (mut run, mut length, mut after_member) = (0, 0, false);
    let (ending, tested) = prefixes(set, sides, (limit + 1).min(LARGEST_LIMIT), &mut |prefix, passes| {
        let whole = prefix.len() == set.n;
        if passes {
            (run, after_member) = (0, whole);
        } else {
            (run, after_member) = if prefix.len() == length { (run + 1, after_member) } else { (1, false) };
            behind |= whole && after_member && run >= runs::LONG;
        }
        length = prefix.len();
        if passes && whole && !(twice && below) {
            let mut point = [0; 8];
            point[..set.n].copy_from_slice(prefix);
            twice |= set.basics.iter().filter(|basic| basic.holds(&point)).count() > 1;
            below |= point.iter().any(|&x| x < 0);
        }
        false
    });
    let met = [
        ("a point in two basic sets", twice),
        ("points below 0", below),
        ("long run behind a member", behind),
        ("over 10,000 prefixes", tested > MANY),
        ("limit inside a long run", tested > *limit && run >= runs::LONG),
        ("limit one below the tally", ending == Ending::Done && tested == limit + 1),
        ("limit at the tally", ending == Ending::Done && tested == *limit),
        ("limit one above the tally", ending == Ending::Done && tested + 1 == *limit),
    ];
    met.iter().filter(|(_, is)| *is).for_each(|(name, _)| bump(counts, name));
}

/// Counts what a call of the count reaches.
pub fn count(call: &str, counts: &mut Counts) {
    let Some(asked) = asked(call) else { return };
    if let Some(number) = refused(&asked) {
        return count_refusal(&asked, number, counts);
    }
    count_question(&asked, counts);
    if !asked.sides.is_shut() {
        count_walk(&asked, counts);
    }
}
