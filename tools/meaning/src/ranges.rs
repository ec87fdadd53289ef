//! The range of a small box by enumeration of its points (document 02, "Scale readings as ranges"), and the difference
//! in the table by membership, in the box and about it. Prefixes are looked at for the limits alone.

use crate::cases::{as_written, kept_have_points, may_refuse, meaning, points, verdict, Check, Verdict, ROOM};
use crate::numbers::Sources;
use crate::sets::{holds, read, Basic, Set};
use crate::walk::Walk;
use generate::boxes::{all_but_a_half, moved};
use generate::model::{self, encode, Rule};
use generate::numbers::numbered;
use generate::rng::Rng;
use generate::sets::World;
use hexscript::tokens::{hex, unhex};

/// How many values a side has at most, by the number of axes: of a long box, and of a short one, which is more often
/// sure or never.
const LONGEST: [i64; 3] = [1_500, 40, 11];
const SHORTEST: [i64; 3] = [6, 4, 3];
const FARTHEST: i32 = 1_048_576;
const LARGEST_LIMIT: u32 = 1_000_000;
/// Points so far from the box are looked at too.
const ABOUT: i32 = 2;

struct Case {
    n: usize,
    low: [i32; 8],
    high: [i32; 8],
    given: model::Set,
    limits: [u32; 2],
}

/// Small numbers only, so that every kept piece has a point with fractions.
fn any_set(rng: &mut Rng, world: &World) -> model::Set {
    match rng.below(12) {
        0 => model::Set::new(),
        1 => [world.small(rng), vec![model::Basic::default()]].concat(),
        2..=5 => world.loose(rng),
        6 | 7 => (0..1 + rng.below(4)).map(|_| world.boxed(rng)).collect(),
        8 | 9 => world.slots(rng),
        _ => world.small(rng),
    }
}

impl Case {
    fn new(rng: &mut Rng) -> Case {
        let mut case = if rng.chance(4) { Case::of_a_half(rng) } else { Case::of_any_set(rng) };
        case.given = numbered(&case.given, rng);
        if rng.chance(10) {
            case.go_to_the_ends(rng);
        }
        case.limits = case.any_limits(rng);
        case
    }

    fn of_any_set(rng: &mut Rng) -> Case {
        let n = 1 + rng.below(LONGEST.len());
        let world = World::with_axes(rng, n);
        let given = any_set(rng, &world);
        let longest = if rng.chance(45) { SHORTEST[n - 1] } else { LONGEST[n - 1] };
        let (mut low, mut high) = ([0; 8], [0; 8]);
        for axis in 0..n {
            low[axis] = rng.range(-longest.min(12), 5) as i32;
            high[axis] = low[axis] + rng.range(0, longest - 1) as i32;
        }
        Case { n, low, high, given, limits: [LARGEST_LIMIT; 2] }
    }

    /// Sure, with a piece that has a point with fractions only.
    fn of_a_half(rng: &mut Rng) -> Case {
        let asked = all_but_a_half(rng);
        let (low, high) = (asked.sides.low, asked.sides.high);
        Case { n: asked.n, low, high, given: asked.set, limits: [LARGEST_LIMIT; 2] }
    }

    /// Moves set and box to an end of every axis, where the set can be moved.
    fn go_to_the_ends(&mut self, rng: &mut Rng) {
        let mut by = [0; 8];
        for (axis, by) in by.iter_mut().enumerate().take(self.n) {
            *by = rng.pick(&[FARTHEST - self.high[axis], -FARTHEST - self.low[axis]]);
        }
        if let Some(given) = moved(&self.given, &by) {
            self.given = given;
            self.low = std::array::from_fn(|axis| self.low[axis] + by[axis]);
            self.high = std::array::from_fn(|axis| self.high[axis] + by[axis]);
        }
    }

    /// Mostly enough; else about the tally of the set's search, and few for the other one, whose tally only the
    /// difference tells.
    fn any_limits(&self, rng: &mut Rng) -> [u32; 2] {
        let set = meaning(&self.given);
        let mut walk = self.walk(&set, LARGEST_LIMIT);
        walk.answer();
        let about = (walk.tally + rng.below(3) as u32).max(2) - 1;
        match rng.below(8) {
            0 => [about, LARGEST_LIMIT],
            1 => [LARGEST_LIMIT, 1 + rng.below(40) as u32],
            2 => [about, 1 + rng.below(6) as u32],
            _ => [LARGEST_LIMIT; 2],
        }
    }

    fn walk<'a>(&self, set: &'a [Basic], limit: u32) -> Walk<'a> {
        Walk { set, n: self.n, low: self.low, high: self.high, limit, tally: 0 }
    }

    fn points(&self) -> Vec<[i32; 8]> {
        points(self.n, &self.low, &self.high)
    }

    fn has(&self, point: &[i32; 8]) -> bool {
        (0..self.n).all(|axis| (self.low[axis]..=self.high[axis]).contains(&point[axis]))
    }

    /// The box as a basic set.
    fn written(&self) -> model::Basic {
        let side = |axis: usize, sign: i16, constant: i32| {
            let mut axes = [0; 8];
            axes[axis] = sign;
            Rule { equality: false, number: 0, constant, axes, divisions: [0; 8] }
        };
        let sides = |axis: usize| [side(axis, 1, -self.low[axis]), side(axis, -1, self.high[axis])];
        model::Basic { divisions: Vec::new(), rules: (0..self.n).flat_map(sides).collect() }
    }

    fn call(&self) -> String {
        let (set, [first, second]) = (hex(&encode(&self.given)), self.limits);
        let corners = [self.low, self.high].concat().iter().map(i32::to_string).collect::<Vec<_>>().join(" ");
        format!("range {} {ROOM} {set} {first} {second} {corners}", self.n)
    }

    /// The answer's words by the points of the box; by its prefixes only where a search runs out.
    fn expected(&self, set: &[Basic], found: &[Basic]) -> String {
        let runs_out = |set: &[Basic], limit: u32| self.walk(set, limit).answer().starts_with("spent");
        let points = self.points();
        let first = |member: bool| points.iter().find(|point| holds(set, point) == member);
        let words = |point: &[i32; 8]| point[..self.n].iter().map(i32::to_string).collect::<Vec<_>>().join(" ");
        match (first(true), first(false)) {
            _ if runs_out(set, self.limits[0]) => "spent 1".to_string(),
            _ if runs_out(found, self.limits[1]) => "spent 2".to_string(),
            (None, _) => "never".to_string(),
            (_, None) => "sure".to_string(),
            (Some(inside), Some(outside)) => format!("depends {} / {}", words(inside), words(outside)),
        }
    }

    /// The points of the table's set are those of the box that are not in the given one, each in one piece.
    fn judge_points(&self, set: &[Basic], found: &[Basic]) -> Result<(), String> {
        let (mut low, mut high) = (self.low, self.high);
        low[..self.n].iter_mut().for_each(|x| *x -= ABOUT);
        high[..self.n].iter_mut().for_each(|x| *x += ABOUT);
        for point in points(self.n, &low, &high) {
            let pieces = found.iter().filter(|piece| piece.holds(&point)).count();
            let right = usize::from(self.has(&point) && !holds(set, &point));
            if pieces != right {
                return Err(format!("{pieces} pieces hold {point:?}, should be {right}"));
            }
        }
        Ok(())
    }

    /// The rules of its pieces come from the box and the set, and are tight; the uncut box is as it is written.
    fn judge_rules(&self, found: &[Basic]) -> Result<(), String> {
        let (whole, given) = (as_written(&[self.written()]), as_written(&self.given));
        Sources::of("difference", &whole, &given).hold(found)?;
        if !given.is_empty() {
            return kept_have_points(self.n, found);
        }
        if *found == *whole { Ok(()) } else { Err("should be the box as it is written".to_string()) }
    }

    fn judge(&self, answer: &str) -> Verdict {
        let Some((words, found)) = ranged(answer) else {
            let refused = answer.starts_with("refused 10 ") || answer.starts_with("refused 11 ");
            let allowed = refused && may_refuse(&[self.written()], &self.given);
            return if allowed { Verdict::Untold } else { Verdict::Bad("no range".to_string()) };
        };
        let set = meaning(&self.given);
        if let Err(story) = self.judge_points(&set, &found).and_then(|()| self.judge_rules(&found)) {
            return Verdict::Bad(story);
        }
        let expected = self.expected(&set, &found);
        verdict(words == expected, || format!("should be {expected}"))
    }
}

/// The words of an answer and the set in its table, which is 0 past it; nothing where it is none.
fn ranged(answer: &str) -> Option<(&str, Set)> {
    let (words, rest) = answer.split_once(" | ")?;
    let (length, table) = rest.split_once(' ')?;
    let (length, table) = (length.parse::<usize>().ok()?, unhex(table)?);
    let good = table.len() == ROOM && table.get(length..)?.iter().all(|&byte| byte == 0);
    if good { Some((words, read(&table[..length])?)) } else { None }
}

/// Check number `index` of a seed: a box of up to three axes and some thousand points.
pub fn check(seed: u64, index: u64) -> Check {
    let case = Case::new(&mut Rng::of(seed ^ 0x5CA1E, index));
    Check { call: case.call(), judge: Box::new(move |answer| case.judge(answer)) }
}
