//! Seeded calls for the line mode.

use crate::counting;
use crate::damage::damaged;
use crate::extremes;
use crate::fleets;
use crate::hard;
use crate::model::{encode, Set};
use crate::numbers::{numbered, written};
use crate::queries::{any_box, any_limit, any_point, widest_box};
use crate::ranges;
use crate::rng::Rng;
use crate::runs;
use crate::sets::World;
use crate::walks;
use crate::wider;
use hexscript::layout::LONGEST_SET;
use hexscript::tokens::hex;

pub const KINDS: [&str; 17] = [
    "states", "check", "part", "member", "holder", "fleet", "search", "count", "counts", "range", "test", "greatest",
    "least", "union", "intersection", "difference", "complement",
];

/// Bytes of the set, some of its rules with numbers, damaged for a part of the calls.
pub(crate) fn bytes(rng: &mut Rng, set: &Set, bad_percent: usize) -> String {
    let set = numbered(set, rng);
    if rng.chance(bad_percent) {
        hex(&damaged(rng, &set))
    } else {
        hex(&encode(&set))
    }
}

/// The number of axes that the call names: seldom another than the set's.
pub(crate) fn axes(rng: &mut Rng, n: usize) -> usize {
    match rng.below(50) {
        0 => rng.pick(&[0, 9, 255]),
        1 => 1 + rng.below(8),
        _ => n,
    }
}

pub(crate) fn point_words(point: &[i32; 8]) -> String {
    point.iter().map(i32::to_string).collect::<Vec<_>>().join(" ")
}

fn check(rng: &mut Rng, world: &World) -> String {
    let set = if rng.chance(15) { world.near_limit(rng, true) } else { world.any(rng) };
    format!("check {} {}", axes(rng, world.n), bytes(rng, &set, 70))
}

fn part(rng: &mut Rng, world: &World) -> String {
    let set = if rng.chance(15) { world.near_limit(rng, true) } else { world.any(rng) };
    let k = if rng.chance(80) { rng.below(5) } else { rng.below(35) };
    format!("part {} {} {k}", axes(rng, world.n), bytes(rng, &set, 15))
}

fn member(rng: &mut Rng, world: &World) -> String {
    let set = world.any(rng);
    format!("member {} {} {}", axes(rng, world.n), bytes(rng, &set, 8), point_words(&any_point(rng, world.n)))
}

fn holder(rng: &mut Rng, world: &World) -> String {
    let (a, b) = (world.any(rng), world.any(rng));
    let (a, b) = (bytes(rng, &a, 8), bytes(rng, &b, 8));
    format!("holder {} {a} {b} {}", axes(rng, world.n), point_words(&any_point(rng, world.n)))
}

/// The number that ends the answer: the tally, where the call is not refused.
pub(crate) fn tally(call: &str) -> i64 {
    second::run_call(call).rsplit(' ').next().and_then(|word| word.parse().ok()).unwrap_or(1)
}

fn search_line(n: usize, set: &str, limit: u32, low: &[i32; 8], high: &[i32; 8]) -> String {
    format!("search {n} {set} {limit} {} {}", point_words(low), point_words(high))
}

/// A third have long runs; of the others, half of the limits lie at the tally itself, one before or one behind.
fn search(rng: &mut Rng, world: &World) -> String {
    if rng.chance(33) {
        let (n, set, sides, limit) = runs::search(rng);
        return search_line(n, &hex(&written(&set, rng)), limit, &sides.low, &sides.high);
    }
    let set = world.any(rng);
    let widest = rng.chance(5);
    let (low, high) = if widest { widest_box(world.n) } else { any_box(rng, world.n) };
    let (n, set) = (axes(rng, world.n), bytes(rng, &set, 5));
    let line = |limit: u32| search_line(n, &set, limit, &low, &high);
    if widest {
        return line(rng.range(1, 100) as u32);
    }
    if rng.chance(50) {
        return line(any_limit(rng));
    }
    line((tally(&line(1_000_000)) + rng.range(-1, 1)).max(0) as u32)
}

fn test(rng: &mut Rng, world: &World) -> String {
    let (n, set): (usize, Set) = match rng.below(20) {
        0 => {
            let (n, basic) = if rng.chance(20) { wider::slow(rng) } else { hard::near(rng) };
            (n, vec![basic])
        }
        1 => (world.n, world.near_limit(rng, false)),
        2..=6 => {
            let n = 2 + rng.below(5); // more axes, more pivots
            (n, vec![World::with_axes(rng, n).dense(rng)])
        }
        7 | 8 => (world.n, vec![world.wide(rng)]),
        9 | 10 => {
            let (n, basic) = wider::quick(rng);
            (n, vec![basic])
        }
        11 => (world.n, world.any(rng)),
        _ => (world.n, vec![world.small(rng), vec![world.boxed(rng)]].concat()),
    };
    let k = if rng.chance(97) { 1 + rng.below(set.len().max(1)) } else { rng.pick(&[0, 33, set.len() + 1]) };
    format!("test {} {} {k}", axes(rng, n), bytes(rng, &set, 2))
}

/// The two sets of an operation of this kind and their number of axes.
fn operands(rng: &mut Rng, world: &World, kind: &str) -> (usize, Set, Set) {
    match rng.below(40) {
        0 => {
            let (n, basic) = hard::near(rng);
            let other = World::with_axes(rng, n);
            (n, vec![basic], vec![other.boxed(rng)])
        }
        1..=6 => {
            let first = world.near_limit(rng, false);
            let second = if rng.chance(50) { world.near_limit(rng, false) } else { world.small(rng) };
            (world.n, first, second)
        }
        7..=10 => (world.n, vec![world.wide(rng)], world.small(rng)),
        11..=24 => {
            let (first, second) = world.half_slots(rng, kind == "difference");
            (world.n, first, second)
        }
        25..=28 => wider::operands(rng, kind),
        _ => (world.n, world.any(rng), world.any(rng)),
    }
}

/// A table that fits, is one byte short or long, has no byte, or any size.
fn room(rng: &mut Rng, line: impl Fn(usize) -> String) -> String {
    if rng.chance(25) {
        return line(rng.pick(&[0, 1, 74, 75, 300, 8_000]));
    }
    let answer = second::run_call(&line(LONGEST_SET));
    let length: i64 = answer.split(' ').nth(1).and_then(|w| w.parse().ok()).unwrap_or(0);
    let length = if answer.starts_with("gives") { length } else { rng.range(0, 200) };
    let spare = rng.pick(&[-1, -1, 0, 0, 0, 1, 2, 40]);
    line((length + spare).max(0) as usize)
}

fn operation(rng: &mut Rng, world: &World, kind: &str) -> String {
    let (n, a, b) = operands(rng, world, kind);
    let n = axes(rng, n);
    let (a, b) = (bytes(rng, &a, 4), bytes(rng, &b, 4));
    if kind == "complement" {
        return room(rng, |room| format!("complement {n} {room} {a}"));
    }
    room(rng, |room| format!("{kind} {n} {room} {a} {b}"))
}

/// Call number `index` of a seed, of one of the kinds.
pub fn call(seed: u64, index: u64, kinds: &[&str]) -> String {
    // Another stream than that of the scripts.
    let rng = &mut Rng::of(seed ^ 0xCA11, index);
    let world = &World::new(rng);
    match rng.pick(kinds) {
        "check" => check(rng, world),
        "part" => part(rng, world),
        "member" => member(rng, world),
        "holder" => holder(rng, world),
        "fleet" => fleets::call(rng, world),
        "search" => search(rng, world),
        kind @ ("count" | "counts") => counting::call(rng, world, kind),
        "range" => ranges::call(rng, world),
        "test" => test(rng, world),
        kind @ ("greatest" | "least") => extremes::call(rng, world, kind),
        "states" => walks::call(rng),
        kind => operation(rng, world, kind),
    }
}
