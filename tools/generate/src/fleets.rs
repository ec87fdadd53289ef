//! Calls of the fleet (document 02, request 2): sets and lists of points; and what such calls reach.

use crate::calls::{axes, bytes};
use crate::histogram::{bump, Counts};
use crate::model::{Basic, Set};
use crate::rng::Rng;
use crate::sets::World;
use hexscript::tokens::unhex;
use second::ask::FARTHEST;
use second::fleet::{fleet, points, MOST_POINTS};
use second::{parse, Point};

/// What has to occur: lists, refusals, sets, and which points are in.
pub const EVENTS: [&str; 21] = [
    "no points",
    "1 point",
    "63 points",
    "64 points",
    "65 points",
    "part of a point",
    "a point twice",
    "farthest coordinates",
    "first coordinate bad",
    "last coordinate bad",
    "16 before 12",
    "the set before 16",
    "no basic sets",
    "32 basic sets",
    "in two basic sets",
    "in a later basic set only",
    "all in",
    "none in",
    "the first alone in",
    "the last alone in",
    "64 points, some in",
];

const BAD: [i32; 4] = [FARTHEST + 1, -FARTHEST - 1, i32::MAX, i32::MIN];

fn any_set(rng: &mut Rng, world: &World) -> Set {
    match rng.below(20) {
        0 => Set::new(),
        1 => vec![Basic::default()],
        2..=5 => (0..1 + rng.below(32)).map(|_| world.boxed(rng)).collect(),
        6 => (0..32).map(|_| world.boxed(rng)).collect(),
        7 => world.near_limit(rng, false),
        8..=11 => vec![world.small(rng), vec![world.boxed(rng)]].concat(),
        _ => world.any(rng),
    }
}

/// Mostly as many points as there may be, about as many, few, or none.
fn any_count(rng: &mut Rng) -> usize {
    match rng.below(20) {
        0 => 0,
        1 | 2 => 1,
        3 | 4 => MOST_POINTS - 1,
        5..=8 => MOST_POINTS,
        9 => MOST_POINTS + 1,
        10 => MOST_POINTS + 1 + rng.below(100),
        11..=15 => 2 + rng.below(6),
        _ => rng.below(MOST_POINTS + 1),
    }
}

/// Coordinates about the sets, now and then a point of before again.
fn any_list(rng: &mut Rng, n: usize, count: usize) -> Vec<i32> {
    let size = if rng.chance(90) { rng.pick(&[2, 5, 8]) } else { i64::from(FARTHEST) };
    let mut list: Vec<i32> = Vec::new();
    for _ in 0..count {
        if n > 0 && !list.is_empty() && rng.chance(10) {
            let at = n * rng.below(list.len() / n);
            list.extend_from_within(at..at + n);
        } else {
            list.extend((0..n).map(|_| rng.range(-size, size) as i32));
        }
    }
    list
}

/// A number of the list at its range's end or behind it: the first, the last, or any.
fn spoil(rng: &mut Rng, list: &mut [i32]) {
    if let Some(last) = list.len().checked_sub(1) {
        let place = match rng.below(3) {
            0 => 0,
            1 => last,
            _ => rng.below(list.len()),
        };
        list[place] = if rng.chance(30) { rng.pick(&[FARTHEST, -FARTHEST]) } else { rng.pick(&BAD) };
    }
}

pub fn call(rng: &mut Rng, world: &World) -> String {
    let set = any_set(rng, world);
    let (n, count) = (axes(rng, world.n), any_count(rng));
    let mut list = any_list(rng, n.min(8), count);
    if rng.chance(10) {
        list.truncate(list.len().saturating_sub(1 + rng.below(7)));
    }
    if rng.chance(12) {
        spoil(rng, &mut list);
    }
    let words: String = list.iter().map(|x| format!(" {x}")).collect();
    format!("fleet {n} {}{words}", bytes(rng, &set, 5))
}

/// Counts a call by its list and, where that is whole and in range, by the points that are in.
pub fn count(call: &str, counts: &mut Counts) {
    let words: Vec<&str> = call.split(' ').collect();
    let ["fleet", n, set, coordinates @ ..] = &words[..] else { return };
    let (Ok(n @ 1..=8), Some(set)) = (n.parse::<u8>(), unhex(set)) else { return };
    let list: Vec<i32> = coordinates.iter().filter_map(|word| word.parse().ok()).collect();
    let bad = |x: &i32| !(-FARTHEST..=FARTHEST).contains(x);
    match (parse(n, &set), points(usize::from(n), &list)) {
        (Err(_), Ok(_)) => {}
        (Err(_), Err(_)) => bump(counts, "the set before 16"),
        (Ok(_), Err(_)) if list.iter().any(bad) => bump(counts, "16 before 12"),
        (Ok(set), Err(_)) if list.len() == (MOST_POINTS + 1) * set.n => bump(counts, "65 points"),
        (Ok(set), Err(_)) if list.len() < MOST_POINTS * set.n => bump(counts, "part of a point"),
        (Ok(_), Err(_)) => {}
        (Ok(_), Ok(_)) if list.first().is_some_and(bad) => bump(counts, "first coordinate bad"),
        (Ok(_), Ok(_)) if list.last().is_some_and(bad) => bump(counts, "last coordinate bad"),
        (Ok(_), Ok(_)) if list.iter().any(bad) => {}
        (Ok(set), Ok(points)) => count_points(&set, &points, &list, counts),
    }
}

/// Counts a call that is not refused.
fn count_points(set: &second::Set, points: &[Point], list: &[i32], counts: &mut Counts) {
    let Ok(found) = fleet(set, list) else { return };
    let holders = |point: &Point| set.basics.iter().filter(|basic| basic.holds(point)).count();
    let later = |point: &Point| holders(point) > 0 && !set.basics[0].holds(point);
    let twice = (1..points.len()).any(|i| points[..i].contains(&points[i]));
    let inside = found.count as usize;
    let last = points.len().saturating_sub(1);
    let events = [
        ("no points", points.is_empty()),
        ("1 point", points.len() == 1),
        ("63 points", points.len() == MOST_POINTS - 1),
        ("64 points", points.len() == MOST_POINTS),
        ("a point twice", twice),
        ("farthest coordinates", list.iter().any(|x| x.abs() == FARTHEST)),
        ("no basic sets", set.basics.is_empty()),
        ("32 basic sets", set.basics.len() == 32),
        ("in two basic sets", points.iter().any(|point| holders(point) > 1)),
        ("in a later basic set only", points.iter().any(later)),
        ("all in", inside > 1 && inside == points.len()),
        ("none in", inside == 0 && points.len() > 1),
        ("the first alone in", last > 0 && found.mask == 1),
        ("the last alone in", last > 0 && found.mask == 1 << last),
        ("64 points, some in", points.len() == MOST_POINTS && 0 < inside && inside < MOST_POINTS),
    ];
    events.iter().filter(|(_, occurs)| *occurs).for_each(|(name, _)| bump(counts, name));
}
