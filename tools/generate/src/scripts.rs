//! Seeded scripts.

use crate::damage::{blind, damaged};
use crate::hard;
use crate::model::{encode, Basic, Set};
use crate::numbers::{all_numbered, numbered, written};
use crate::queries::{any_box, any_limit, any_point, widest_box};
use crate::rng::Rng;
use crate::runs;
use crate::sets::World;
use crate::wider;

/// A script under construction.
struct Script {
    bytes: Vec<u8>,
    n: usize,
}

const OPERATIONS: [u8; 3] = [0x41, 0x42, 0x43];

impl Script {
    fn new(n: usize) -> Script {
        Script { bytes: vec![0x10, n as u8], n }
    }

    /// `40`; a length over 16 bits cannot be written, such a set is left out.
    fn load(&mut self, target: usize, set: &[u8]) {
        if let Ok(length) = u16::try_from(set.len()) {
            self.bytes.extend([0x40, target as u8]);
            self.bytes.extend(length.to_le_bytes());
            self.bytes.extend(set);
        }
    }

    fn operation(&mut self, code: u8, target: usize, first: usize, second: usize) {
        self.bytes.extend([code, target as u8, first as u8, second as u8]);
    }

    fn complement(&mut self, target: usize, source: usize) {
        self.bytes.extend([0x44, target as u8, source as u8]);
    }

    fn list(&mut self, set: usize) {
        self.bytes.extend([0x45, set as u8]);
    }

    fn numbers(&mut self, values: &[i32]) {
        self.bytes.extend(values.iter().flat_map(|v| v.to_le_bytes()));
    }

    fn member(&mut self, set: usize, rng: &mut Rng) {
        self.bytes.extend([0x46, set as u8]);
        self.numbers(&any_point(rng, self.n));
    }

    fn search_in(&mut self, set: usize, limit: u32, low: &[i32; 8], high: &[i32; 8]) {
        self.bytes.extend([0x47, set as u8]);
        self.bytes.extend(limit.to_le_bytes());
        self.numbers(low);
        self.numbers(high);
    }

    fn search(&mut self, set: usize, rng: &mut Rng) {
        let widest = rng.chance(5);
        let (low, high) = if widest { widest_box(self.n) } else { any_box(rng, self.n) };
        let limit = if widest { rng.range(1, 100) as u32 } else { any_limit(rng) };
        self.search_in(set, limit, &low, &high);
    }

    fn end(mut self) -> Vec<u8> {
        self.bytes.push(0x00);
        self.bytes
    }
}

/// Loads, operations and questions in any order, with set numbers over 3 now and then.
fn mixed(rng: &mut Rng) -> Vec<u8> {
    let world = World::new(rng);
    let mut script = Script::new(world.n);
    let number = |rng: &mut Rng| if rng.chance(2) { rng.pick(&[4, 5, 255]) } else { rng.below(4) };
    for target in 0..1 + rng.below(3) {
        script.load(target, &written(&world.any(rng), rng));
    }
    for _ in 0..2 + rng.below(7) {
        match rng.below(10) {
            0 => script.load(number(rng), &written(&world.any(rng), rng)),
            1..=4 => script.operation(rng.pick(&OPERATIONS), number(rng), number(rng), number(rng)),
            5 => script.complement(number(rng), number(rng)),
            6 | 7 => script.list(number(rng)),
            8 => script.member(rng.below(4), rng),
            _ => script.search(rng.below(4), rng),
        }
    }
    script.list(rng.below(4));
    script.end()
}

/// A difference of a difference of an intersection, then questions.
fn chain(rng: &mut Rng) -> Vec<u8> {
    let world = World::new(rng);
    let mut script = Script::new(world.n);
    script.load(0, &written(&[world.boxed(rng), world.boxed(rng)], rng));
    for target in 1..4 {
        script.load(target, &written(&world.small(rng), rng));
    }
    script.operation(0x42, 0, 0, 1);
    script.operation(0x43, 0, 0, 2);
    script.operation(0x43, rng.pick(&[0, 1]), 0, 3);
    script.list(0);
    script.list(1);
    for _ in 0..3 {
        script.member(rng.below(2), rng);
    }
    script.search(0, rng);
    script.end()
}

/// Sets that need about 200 pivots, kept or dropped by an intersection or a difference.
fn pivots(rng: &mut Rng) -> Vec<u8> {
    let (n, basic) = hard::near(rng);
    let mut script = Script::new(n);
    let world = World::with_axes(rng, n);
    script.load(0, &written(&[basic], rng));
    let other: Set = if rng.chance(60) { vec![Basic::default()] } else { vec![world.boxed(rng)] };
    script.load(1, &written(&other, rng));
    script.operation(rng.pick(&[0x42, 0x42, 0x43]), 2, 0, 1);
    script.list(2);
    script.end()
}

/// Void equalities and alternating slots on both sides of the operations that tighten; their results are sources too.
fn slots(rng: &mut Rng) -> Vec<u8> {
    let world = World::new(rng);
    let mut script = Script::new(world.n);
    let cut = rng.chance(50);
    let (first, second) = world.half_slots(rng, cut);
    script.load(0, &written(&first, rng));
    script.load(1, &written(&second, rng));
    for code in [0x42, 0x43] {
        script.operation(code, 2, 0, 1);
        script.list(2);
        script.member(2, rng);
    }
    script.complement(3, rng.below(2));
    script.operation(rng.pick(&OPERATIONS), 3, 2 + rng.below(2), rng.below(3));
    script.list(3);
    script.search(3, rng);
    script.end()
}

/// Operations with candidates that are wide at 64 bits; a result is cut or met once more.
fn wider_numbers(rng: &mut Rng) -> Vec<u8> {
    let kind = rng.pick(&["intersection", "difference", "complement"]);
    let (n, first, second) = wider::operands(rng, kind);
    let mut script = Script::new(n);
    script.load(0, &written(&first, rng));
    script.load(1, &written(&second, rng));
    match kind {
        "intersection" => script.operation(0x42, 2, 0, 1),
        "difference" => script.operation(0x43, 2, 0, 1),
        _ => script.complement(2, 0),
    }
    script.list(2);
    script.operation(rng.pick(&[0x42, 0x43]), 3, 2, rng.below(2));
    script.list(3);
    script.member(2, rng);
    script.end()
}

/// Searches in which many values of one axis fail one after another.
fn long_runs(rng: &mut Rng) -> Vec<u8> {
    let (n, set, sides, limit) = runs::search(rng);
    let mut script = Script::new(n);
    script.load(0, &written(&set, rng));
    script.search_in(0, limit, &sides.low, &sides.high);
    script.search_in(0, any_limit(rng), &sides.low, &sides.high);
    script.end()
}

/// Sets near 32, 8 and 48, and results near them and near 8,000 bytes.
fn limits(rng: &mut Rng) -> Vec<u8> {
    let world = World::new(rng);
    let mut script = Script::new(world.n);
    script.load(0, &written(&world.near_limit(rng, true), rng));
    let second = if rng.chance(60) { world.near_limit(rng, true) } else { world.small(rng) };
    script.load(1, &written(&second, rng));
    for _ in 0..1 + rng.below(3) {
        match rng.below(5) {
            0 => script.complement(2 + rng.below(2), rng.below(2)),
            _ => script.operation(rng.pick(&OPERATIONS), 2 + rng.below(2), rng.below(2), rng.below(2)),
        }
    }
    script.member(2, rng);
    if rng.chance(20) {
        script.list(2);
    }
    script.end()
}

/// Five basic sets of 41 rules with numbers are 8,000 bytes, a table's; one basic set or one number less or more, and
/// what the operations make of such sets.
fn full_of_numbers(rng: &mut Rng) -> Vec<u8> {
    let world = World::new(rng);
    let mut script = Script::new(world.n);
    let basic = Basic { divisions: Vec::new(), rules: (0..41).map(|_| world.side(rng)).collect() };
    let mut set = all_numbered(&vec![basic; 5], rng);
    match rng.below(5) {
        0 => set.push(Basic::default()),
        1 => set[rng.below(5)].rules[rng.below(41)].number = 0,
        2 => drop(set.pop()),
        _ => {}
    }
    script.load(0, &encode(&set));
    script.load(1, &encode(&all_numbered(&world.small(rng), rng)));
    script.operation(rng.pick(&[0x41, 0x43]), 2, 0, 3);
    script.operation(rng.pick(&OPERATIONS), 3, rng.below(2), rng.below(2));
    script.complement(rng.below(2), 1);
    script.list(rng.below(4));
    script.end()
}

/// Loads of damaged sets; the target's old content is listed after them.
fn bad_sets(rng: &mut Rng) -> Vec<u8> {
    let world = World::new(rng);
    let mut script = Script::new(world.n);
    script.load(0, &written(&world.small(rng), rng));
    for _ in 0..1 + rng.below(5) {
        let set = match rng.below(10) {
            0 => world.near_limit(rng, true),
            1 => vec![world.wide(rng)],
            _ => world.any(rng),
        };
        let (target, set) = (rng.below(2), numbered(&set, rng));
        script.load(target, &damaged(rng, &set));
    }
    script.list(0);
    script.end()
}

/// A script that is cut off, begins wrong, lacks its end or goes on after it, or has any byte changed.
fn bad_script(rng: &mut Rng) -> Vec<u8> {
    let mut bytes = match rng.below(3) {
        0 => chain(rng),
        _ => mixed(rng),
    };
    match rng.below(9) {
        0 => bytes[1] = rng.pick(&[0, 9, 10, 128, 255]),
        1 => bytes[0] = rng.pick(&[0x00, 0x11, 0x40, 0x45, 0x47, 0x48, 0x99]),
        2 => drop(bytes.drain(..2)),
        3 => bytes.truncate(rng.below(4)),
        4 => drop(bytes.pop()),
        5 => {
            bytes.pop();
            bytes.extend([0x10, 0x01, 0x00]);
        }
        6 => bytes.extend([0x99, 0x10, 0x45]),
        7 => {
            bytes.pop();
            bytes.extend([rng.pick(&[0x01, 0x3F, 0x48, 0x12, 0xFF]), 0x00]);
        }
        _ => blind(rng, &mut bytes),
    }
    bytes
}

/// Script number `index` of a seed.
pub fn script(seed: u64, index: u64) -> Vec<u8> {
    let rng = &mut Rng::of(seed, index);
    match rng.below(100) {
        0..=23 => mixed(rng),
        24..=27 => long_runs(rng),
        28..=37 => chain(rng),
        38..=50 => slots(rng),
        51..=55 => pivots(rng),
        56..=59 => wider_numbers(rng),
        60..=69 => limits(rng),
        70..=84 => bad_sets(rng),
        85 | 86 => full_of_numbers(rng),
        _ => bad_script(rng),
    }
}
