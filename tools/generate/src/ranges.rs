//! Calls of the range (document 02, request 5): limits about the tallies of both searches, tables about the length of
//! the difference, faults alone and several at once; and what such calls reach.

use crate::boxes::question;
use crate::calls::{axes, bytes, point_words};
use crate::histogram::{bump, Counts};
use crate::queries::{any_limit, shut, spoil, widest_box};
use crate::rng::Rng;
use crate::runs;
use crate::sets::World;
use hexscript::tokens::unhex;
use second::algebra::{cut, difference, join, unwatched};
use second::ask::{check_corners, check_limit, search, Search, Sides, FARTHEST, LARGEST_LIMIT};
use second::model::{MAX_AXES, MAX_RULES};
use second::range::{box_set, check_box};
use second::{encode, parse, refusal, BasicSet, Rule, Set};

/// What has to occur: answers, sets, boxes, limits, tables, refusals, and which of two comes first.
pub const EVENTS: [&str; 53] = [
    "sure",
    "never",
    "depends, a member first",
    "depends, a member later",
    "sure, pieces without points",
    "spent 1",
    "spent 2",
    "both searches run out",
    "spent 1, nothing outside",
    "spent 2, nothing inside",
    "no basic sets",
    "no rules",
    "several basic sets",
    "divisions",
    "numbers in the difference",
    "first member in a later basic set",
    "first point outside in a later piece",
    "48 rules in a piece",
    "box of one point",
    "low at the end",
    "high at the end",
    "eight axes",
    "long run in the set",
    "long run outside",
    "limits of 1,000,000",
    "first limit one below the tally",
    "first limit at the tally",
    "first limit one above the tally",
    "second limit one below the tally",
    "second limit at the tally",
    "second limit one above the tally",
    "table just long enough",
    "table a byte too short",
    "no table, nothing outside",
    "no table, 11",
    "1 before the set's own",
    "17 of the set",
    "the set's own before 12",
    "12 by a coordinate",
    "12 by an absent axis",
    "12 by a low over its high",
    "12 before 13",
    "low over high before 13",
    "13 by the first limit",
    "13 by the second limit",
    "13 before 10",
    "13 before 11",
    "10 by rules, eight axes",
    "10 by divisions",
    "10 by basic sets",
    "10 before 11",
    "10 before spent",
    "11 before spent",
];

const BAD_LIMITS: [u32; 3] = [0, LARGEST_LIMIT + 1, u32::MAX];
/// Of a box with a side of more values so many prefixes are walked, to save time.
const LONG_SIDE: u64 = 10_000;
const FEW: u32 = 300;

/// A low over its high, a coordinate out of range, or an absent axis that is not 0.
fn spoil_sides(rng: &mut Rng, n: usize, sides: &mut Sides) {
    match rng.below(3) {
        0 => spoil(rng, n, &mut sides.low),
        1 => spoil(rng, n, &mut sides.high),
        _ => shut(rng, n, &mut sides.low, &mut sides.high),
    }
}

/// The length of the difference and the prefixes that either search tests within a limit; nothing where it is refused.
fn measured(n: usize, set: &str, sides: &Sides, limit: u32) -> Option<(i64, [i64; 2])> {
    let set = parse(u8::try_from(n).ok()?, &unhex(set)?).ok()?;
    check_box(set.n, sides).ok()?;
    let outside = difference(&box_set(set.n, sides), &set, &mut unwatched).ok()?;
    let tally = |set: &Set| search(set, sides, limit).ok().map(|found| i64::from(tested(&found)));
    Some((encode(&outside).len() as i64, [tally(&set)?, tally(&outside)?]))
}

fn tested(found: &Search) -> u32 {
    match found {
        Search::At(_, tested) | Search::None(tested) | Search::Spent(tested) => *tested,
    }
}

/// At the tally of each search, one below or one above.
fn about(rng: &mut Rng, tallies: [i64; 2]) -> [u32; 2] {
    tallies.map(|tally| (tally + rng.range(-1, 1)).max(1) as u32)
}

/// Both large enough; or one or both about the tally of their search; or any two.
fn any_limits(rng: &mut Rng, tallies: [i64; 2]) -> [u32; 2] {
    let [first, second] = about(rng, tallies);
    match rng.below(20) {
        0..=7 => [LARGEST_LIMIT; 2],
        8..=10 => [first, LARGEST_LIMIT],
        11..=13 => [LARGEST_LIMIT, second],
        14..=17 => [first, second],
        _ => [any_limit(rng), any_limit(rng)],
    }
}

/// As long as the difference, a byte shorter or longer, without a byte, or any size.
fn any_room(rng: &mut Rng, length: i64) -> i64 {
    match rng.below(20) {
        0 => 0,
        1 => rng.pick(&[1, 74, 75, 300, 2_000]),
        2..=4 => (length - 1).max(0),
        5..=9 => length,
        10..=12 => length + 1,
        _ => length + rng.range(2, 80),
    }
}

/// Most calls are good; some have a fault, a few several at once, which the order of refusals tells apart.
pub fn call(rng: &mut Rng, world: &World) -> String {
    let mut asked = question(rng, world);
    if rng.chance(3) {
        let (low, high) = widest_box(asked.n);
        asked.sides = Sides { low, high };
    }
    let several = rng.chance(6);
    let percent = if several { 50 } else { 4 };
    if rng.chance(percent) {
        spoil_sides(rng, asked.n, &mut asked.sides);
    }
    let n = if several && rng.chance(15) { 0 } else { axes(rng, asked.n) };
    let set = bytes(rng, &asked.set, percent);
    let long = (0..MAX_AXES).any(|axis| asked.sides.values(axis) > LONG_SIDE);
    let walked = if long { FEW } else { LARGEST_LIMIT };
    let measured = measured(n, &set, &asked.sides, walked);
    let refused = measured.is_none();
    let (length, tallies) = measured.unwrap_or((rng.range(0, 300), [1; 2]));
    let mut limits = if long { about(rng, tallies) } else { any_limits(rng, tallies) };
    // What is refused already tells more with another fault.
    if rng.chance(if refused { 25 } else { percent }) {
        limits[rng.below(2)] = rng.pick(&BAD_LIMITS);
    }
    let ([first, second], room) = (limits, any_room(rng, length));
    let (low, high) = (point_words(&asked.sides.low), point_words(&asked.sides.high));
    format!("range {n} {room} {set} {first} {second} {low} {high}")
}

/// A call of the range, read back.
struct Asked {
    n: u8,
    room: usize,
    bytes: Vec<u8>,
    limits: [u32; 2],
    sides: Sides,
}

fn asked(call: &str) -> Option<Asked> {
    let words: Vec<&str> = call.split(' ').collect();
    let ["range", n, room, set, first, second, numbers @ ..] = &words[..] else { return None };
    let numbers: Vec<i32> = numbers.iter().filter_map(|word| word.parse().ok()).collect();
    let eight = |at: usize| numbers.get(at..at + 8)?.try_into().ok();
    Some(Asked {
        n: n.parse().ok()?,
        room: room.parse().ok()?,
        bytes: unhex(set)?,
        limits: [first.parse().ok()?, second.parse().ok()?],
        sides: Sides { low: eight(0)?, high: eight(8)? },
    })
}

fn bump_if(counts: &mut Counts, events: &[(&str, bool)]) {
    events.iter().filter(|(_, is)| *is).for_each(|(name, _)| bump(counts, name));
}

impl Asked {
    fn bad_limits(&self) -> [bool; 2] {
        self.limits.map(|limit| check_limit(limit).is_err())
    }

    /// The search with one prefix more than its limit allows, and whether the limit spends it.
    fn searched(&self, set: &Set, limit: u32) -> (Option<Search>, bool) {
        let found = search(set, &self.sides, (limit + 1).min(LARGEST_LIMIT)).ok();
        let spent = found.as_ref().is_none_or(|found| matches!(found, Search::Spent(_)) || tested(found) > limit);
        (found, spent)
    }

    /// 1, or a number of the set.
    fn count_unread(&self, number: u8, counts: &mut Counts) {
        let own = parse(MAX_AXES as u8, &self.bytes).is_err();
        let bad_box = |n: u8| check_box(usize::from(n), &self.sides).is_err();
        bump_if(counts, &[
            ("1 before the set's own", number == refusal::AXES && own),
            ("the set's own before 12", number != refusal::AXES && bad_box(self.n)),
            ("17 of the set", number == refusal::NO_NUMBER),
        ]);
    }

    /// 12.
    fn count_box(&self, n: usize, counts: &mut Counts) {
        let beyond = |x: &i32| !(-FARTHEST..=FARTHEST).contains(x);
        let far = self.sides.low.iter().chain(&self.sides.high).any(beyond);
        let corners = check_corners(n, &self.sides).is_err();
        let bad_limit = self.bad_limits().contains(&true);
        bump_if(counts, &[
            ("12 by a coordinate", far),
            ("12 by an absent axis", corners && !far),
            ("12 by a low over its high", !corners),
            ("12 before 13", corners && bad_limit),
            ("low over high before 13", !corners && bad_limit),
        ]);
    }

    /// 13.
    fn count_limits(&self, outside: &Result<Set, u8>, counts: &mut Counts) {
        let bad = self.bad_limits();
        bump_if(counts, &[
            ("13 by the first limit", bad == [true, false]),
            ("13 by the second limit", bad == [false, true]),
            ("13 before 10", outside.is_err()),
            ("13 before 11", outside.as_ref().is_ok_and(|outside| encode(outside).len() > self.room)),
        ]);
    }

    /// 10, told by the way of `second::algebra::difference` up to it.
    fn count_ten(&self, set: &Set, counts: &mut Counts) {
        let (limit, written) = ten_by(set, &self.sides);
        bump_if(counts, &[
            ("10 by rules, eight axes", limit == Ten::Rules && set.n == MAX_AXES),
            ("10 by divisions", limit == Ten::Divisions),
            ("10 by basic sets", limit == Ten::BasicSets),
            ("10 before 11", written > self.room),
            ("10 before spent", self.searched(set, self.limits[0]).1),
        ]);
    }

    /// 11.
    fn count_short(&self, set: &Set, outside: &Set, counts: &mut Counts) {
        let spent = self.searched(set, self.limits[0]).1 || self.searched(outside, self.limits[1]).1;
        bump_if(counts, &[
            ("table a byte too short", self.room + 1 == encode(outside).len()),
            ("no table, 11", self.room == 0),
            ("11 before spent", spent),
        ]);
    }

    /// The set, the box and the table of a call that is not refused.
    fn count_given(&self, set: &Set, outside: &Set, counts: &mut Counts) {
        let (Sides { low, high }, basics) = (&self.sides, &set.basics);
        let length = encode(outside).len();
        bump_if(counts, &[
            ("no basic sets", basics.is_empty()),
            ("no rules", basics.iter().any(|basic| basic.rules.is_empty())),
            ("several basic sets", basics.len() > 1),
            ("divisions", basics.iter().any(|basic| !basic.divisions.is_empty())),
            ("numbers in the difference", rules(outside).any(|rule| rule.number != 0)),
            ("48 rules in a piece", outside.basics.iter().any(|piece| piece.rules.len() == MAX_RULES)),
            ("box of one point", low == high),
            ("low at the end", low.contains(&-FARTHEST)),
            ("high at the end", high.contains(&FARTHEST)),
            ("eight axes", set.n == MAX_AXES),
            ("limits of 1,000,000", self.limits == [LARGEST_LIMIT; 2]),
            ("table just long enough", length > 0 && length == self.room),
            ("no table, nothing outside", self.room == 0),
        ]);
    }

    /// Both searches, and what they tell together.
    fn count_answer(&self, set: &Set, outside: &Set, counts: &mut Counts) {
        let [first, second] = self.limits;
        let (inside, first_spent) = self.searched(set, first);
        let (beyond, second_spent) = self.searched(outside, second);
        self.count_search("first", set, first, &inside, counts);
        self.count_search("second", outside, second, &beyond, counts);
        let nothing = |found: &Option<Search>| matches!(found, Some(Search::None(_)));
        bump_if(counts, &[
            ("spent 1", first_spent),
            ("spent 2", !first_spent && second_spent),
            ("both searches run out", first_spent && second_spent),
            ("spent 1, nothing outside", first_spent && !second_spent && nothing(&beyond)),
            ("spent 2, nothing inside", second_spent && !first_spent && nothing(&inside)),
        ]);
        if first_spent || second_spent {
            return;
        }
        match (inside, beyond) {
            (Some(Search::At(member, _)), Some(Search::At(other, _))) => {
                bump(counts, if member < other { "depends, a member first" } else { "depends, a member later" });
            }
            (Some(Search::None(_)), _) => bump(counts, "never"),
            _ => bump_if(counts, &[("sure", true), ("sure, pieces without points", !outside.basics.is_empty())]),
        }
    }

    /// One search: its limit, where its point is, and long runs.
    fn count_search(&self, which: &str, set: &Set, limit: u32, found: &Option<Search>, counts: &mut Counts) {
        let tally = found.as_ref().filter(|found| !matches!(found, Search::Spent(_))).map(tested);
        let name = |place: &str| format!("{which} limit {place} the tally");
        bump_if(counts, &[
            (&name("one below"), tally == Some(limit + 1)),
            (&name("at"), tally == Some(limit)),
            (&name("one above"), tally.is_some_and(|tally| tally + 1 == limit)),
        ]);
        let mut point = [0; MAX_AXES];
        let later = match found {
            Some(Search::At(at, _)) => {
                point[..at.len()].copy_from_slice(at);
                !set.basics[0].holds(&point)
            }
            _ => false,
        };
        let (place, run) = match which {
            "first" => ("first member in a later basic set", "long run in the set"),
            _ => ("first point outside in a later piece", "long run outside"),
        };
        bump_if(counts, &[(place, later), (run, runs::any_long(set, &self.sides, limit))]);
    }
}

fn rules(set: &Set) -> impl Iterator<Item = &Rule> {
    set.basics.iter().flat_map(|basic| &basic.rules)
}

/// The limits of 10.
#[derive(PartialEq)]
enum Ten {
    Rules,
    Divisions,
    BasicSets,
}

/// Which of them a refused difference of the box and the set passes, and how many bytes its pieces had before.
fn ten_by(set: &Set, sides: &Sides) -> (Ten, usize) {
    let whole = box_set(set.n, sides).basics;
    let mut waiting: Vec<(BasicSet, usize)> = whole.into_iter().map(|basic| (basic, 0)).collect();
    let mut result = Set::empty(set.n);
    while let Some((piece, met)) = waiting.pop() {
        let Some(cutter) = set.basics.get(met) else {
            result.basics.push(piece);
            continue;
        };
        match cut(set.n, &piece, cutter, &mut unwatched) {
            Ok(pieces) => waiting.extend(pieces.into_iter().rev().map(|piece| (piece, met + 1))),
            Err(_) if join(&piece, cutter).is_err() => return (Ten::Divisions, encode(&result).len()),
            Err(_) => return (Ten::Rules, encode(&result).len()),
        }
    }
    (Ten::BasicSets, encode(&result).len())
}

/// Counts what a call of the range reaches.
pub fn count(call: &str, counts: &mut Counts) {
    let Some(asked) = asked(call) else { return };
    let set = match parse(asked.n, &asked.bytes) {
        Ok(set) => set,
        Err(number) => return asked.count_unread(number, counts),
    };
    if check_box(set.n, &asked.sides).is_err() {
        return asked.count_box(set.n, counts);
    }
    let outside = difference(&box_set(set.n, &asked.sides), &set, &mut unwatched);
    if asked.bad_limits().contains(&true) {
        return asked.count_limits(&outside, counts);
    }
    match outside {
        Err(_) => asked.count_ten(&set, counts),
        Ok(outside) if encode(&outside).len() > asked.room => asked.count_short(&set, &outside, counts),
        Ok(outside) => {
            asked.count_given(&set, &outside, counts);
            asked.count_answer(&set, &outside, counts);
        }
    }
}
