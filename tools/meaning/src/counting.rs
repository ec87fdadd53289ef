//! The count of a small box by enumeration of its points (document 02, "How many ways"): no prefix is looked at but for
//! the tally and the limit.

use crate::cases::{meaning, points, verdict, Check, Verdict};
use crate::sets::{holds, Basic};
use crate::walk::Walk;
use generate::model::{self, encode};
use generate::numbers::numbered;
use generate::rng::Rng;
use generate::sets::World;
use hexscript::tokens::hex;

/// How many values a side has at most, by the number of axes.
const WIDEST: [i64; 5] = [64, 30, 9, 5, 3];

struct Sides {
    n: usize,
    low: [i32; 8],
    high: [i32; 8],
}

impl Sides {
    /// One box in eight has a low over its high; now and then the chosen axis has 64 values.
    fn new(rng: &mut Rng, n: usize, axis: usize) -> Sides {
        let (mut low, mut high) = ([0; 8], [0; 8]);
        for i in 0..n {
            let longest = if i == axis && n < 3 && rng.chance(30) { 64 } else { WIDEST[n - 1] };
            let values = if rng.chance(20) { longest } else { rng.range(1, longest) };
            low[i] = rng.range(-values / 2 - 2, 2) as i32;
            high[i] = low[i] + values as i32 - 1;
        }
        if rng.chance(12) {
            let shut = rng.below(n);
            high[shut] = low[shut] - rng.range(1, 3) as i32;
        }
        Sides { n, low, high }
    }

    fn values(&self, axis: usize) -> std::ops::RangeInclusive<i32> {
        self.low[axis]..=self.high[axis]
    }

    /// No prefix of a box without points is tested.
    fn tally(&self, set: &[Basic]) -> u32 {
        if (0..self.n).any(|axis| self.values(axis).is_empty()) {
            return 0;
        }
        Walk { set, n: self.n, low: self.low, high: self.high, limit: u32::MAX, tally: 0 }.to_the_end(&mut Vec::new())
    }
}

/// Basic sets that overlap, boxes, no rules, alternating slots, and all that the generator makes.
fn any_set(rng: &mut Rng, world: &World) -> model::Set {
    match rng.below(10) {
        0..=3 => world.loose(rng),
        4 | 5 => (0..2 + rng.below(5)).map(|_| world.boxed(rng)).collect(),
        6 => [world.small(rng), vec![model::Basic::default()]].concat(),
        7 => world.slots(rng),
        _ => world.any(rng),
    }
}

fn limit(rng: &mut Rng, tally: u32) -> u32 {
    match rng.below(8) {
        0 => rng.range(1, i64::from(tally.max(1))) as u32,
        1 => (tally + rng.below(3) as u32).max(2) - 1,
        _ => 1_000_000,
    }
}

/// The numbers of a good answer: all members, those with each value of the axis where it is chosen, the tally.
fn numbers(set: &[Basic], sides: &Sides, chosen: Option<usize>, tally: u32) -> String {
    let mut members = points(sides.n, &sides.low, &sides.high);
    members.retain(|point| holds(set, point));
    let with = |axis: usize, x: i32| members.iter().filter(|point| point[axis] == x).count();
    let each = chosen.iter().flat_map(|&axis| sides.values(axis).map(move |x| (axis, x)));
    let mut numbers = vec![members.len()];
    numbers.extend(each.map(|(axis, x)| with(axis, x)));
    numbers.push(tally as usize);
    numbers.iter().map(usize::to_string).collect::<Vec<_>>().join(" ")
}

/// Of a count that is spent the points tell nothing.
fn judge(answer: &str, expected: &str) -> Verdict {
    match verdict(answer == expected, || format!("should be {expected}")) {
        Verdict::Good if answer.starts_with("spent") => Verdict::Untold,
        found => found,
    }
}

/// Check number `index` of a seed: a box of up to five axes, in three of four cases with a chosen axis.
pub fn check(seed: u64, index: u64) -> Check {
    let rng = &mut Rng::of(seed ^ 0xC047, index);
    let n = 1 + rng.below(WIDEST.len());
    let (world, axis) = (World::with_axes(rng, n), rng.below(n));
    let given = numbered(&any_set(rng, &world), rng);
    let sides = Sides::new(rng, n, axis);
    let chosen = rng.chance(75).then_some(axis);
    let set = meaning(&given);
    let tally = sides.tally(&set);
    let limit = limit(rng, tally);
    let expected = match tally > limit {
        true => format!("spent {limit}"),
        false => format!("count {}", numbers(&set, &sides, chosen, tally)),
    };
    let kind = if chosen.is_some() { "counts" } else { "count" };
    let axis = chosen.map_or(String::new(), |axis| format!(" {}", axis + 1));
    let corners = [sides.low, sides.high].concat().iter().map(i32::to_string).collect::<Vec<_>>().join(" ");
    let call = format!("{kind} {n} {} {limit}{axis} {corners}", hex(&encode(&given)));
    Check { call, judge: Box::new(move |answer| judge(answer, &expected)) }
}
