//! A case: random small sets and a box, the calls to make, and how to judge each answer by meaning.

use crate::fractions::has_point;
use crate::numbers::Sources;
use crate::sets::{holds, read, Basic, Set};
use crate::tight::{is_tight, tightened};
use crate::walk::Walk;
use generate::model::{self, encode, Rule};
use generate::numbers::{numbered, plain};
use generate::rng::Rng;
use generate::sets::World;
use generate::wider;
use hexscript::layout::{LONGEST_DIVISION, LONGEST_RULE};
use hexscript::tokens::{hex, unhex};
use std::rc::Rc;

/// What an answer is found to be.
pub enum Verdict {
    Good,
    /// Allowed, but nothing can be told by this method.
    Untold,
    Bad(String),
}

pub struct Check {
    pub call: String,
    pub judge: Box<dyn Fn(&str) -> Verdict>,
}

/// The sets of a case with all points of its box.
struct Case {
    n: usize,
    low: [i32; 8],
    high: [i32; 8],
    points: Vec<[i32; 8]>,
    a: model::Set,
    b: model::Set,
}

pub const ROOM: usize = 4_000;

pub fn verdict(good: bool, story: impl FnOnce() -> String) -> Verdict {
    if good { Verdict::Good } else { Verdict::Bad(story()) }
}

/// What a set means is what its copy without numbers of rules means (document 02, request 6).
pub fn meaning(set: &[model::Basic]) -> Set {
    as_written(&plain(set))
}

/// The set with its numbers, and where its basic sets lie in its bytes.
pub fn as_written(set: &[model::Basic]) -> Set {
    read(&encode(set)).expect("the generator's own bytes")
}

/// All points of a box in dictionary order.
pub fn points(n: usize, low: &[i32; 8], high: &[i32; 8]) -> Vec<[i32; 8]> {
    let mut out = vec![[0; 8]];
    for axis in 0..n {
        let grown = out.iter().flat_map(|p| {
            (low[axis]..=high[axis]).map(move |x| {
                let mut next = *p;
                next[axis] = x;
                next
            })
        });
        out = grown.collect();
    }
    out
}

/// The result's set and its length, if the answer is a table as it should be: 0 past the result.
fn result(answer: &str) -> Option<Set> {
    let words: Vec<&str> = answer.split(' ').collect();
    let ["gives", length, table] = words[..] else { return None };
    let (length, table) = (length.parse::<usize>().ok()?, unhex(table)?);
    let good = table.len() == ROOM && table.get(length..)?.iter().all(|&b| b == 0);
    if good { read(&table[..length]) } else { None }
}

/// An upper bound on pieces and on a piece's bytes decides whether 10 or 11 may come.
pub fn may_refuse(first: &[model::Basic], cutters: &[model::Basic]) -> bool {
    let opposites = |b: &model::Basic| b.rules.iter().map(|r| 1 + usize::from(r.equality)).sum::<usize>();
    let pieces = cutters.iter().map(opposites).fold(first.len(), |p, o| p.saturating_mul(o.max(1)));
    let most = |f: fn(&model::Basic) -> usize| {
        first.iter().map(f).max().unwrap_or(0) + cutters.iter().map(f).sum::<usize>()
    };
    let (divisions, rules) = (most(|b| b.divisions.len()), most(|b| b.rules.len()));
    let bytes = pieces.saturating_mul(1 + LONGEST_DIVISION * divisions + LONGEST_RULE * (rules + cutters.len()));
    pieces > 32 || divisions > 8 || rules > 40 || bytes > ROOM
}

/// Whether the candidates of all pairs, if all are kept, may be too many or too long.
fn pairs_may_refuse(a: &[model::Basic], b: &[model::Basic]) -> bool {
    let all = |f: fn(&model::Basic) -> usize| -> usize {
        let sum = |set: &[model::Basic]| set.iter().map(f).sum::<usize>();
        sum(a) * b.len() + sum(b) * a.len()
    };
    let (divisions, rules, pairs) = (all(|b| b.divisions.len()), all(|b| b.rules.len()), a.len() * b.len());
    pairs > 32 || pairs + LONGEST_DIVISION * divisions + LONGEST_RULE * rules > ROOM
}

/// A kept candidate is tight and has a point with fractions: on sets this small the test is never wide.
pub fn kept_have_points(n: usize, set: &[Basic]) -> Result<(), String> {
    for (i, basic) in set.iter().enumerate() {
        if !is_tight(basic) {
            return Err(format!("basic set {} of the result has a rule that is not tightened", i + 1));
        }
        let small = n + basic.divisions.len() <= 6;
        if small && has_point(n, basic) == Some(false) {
            return Err(format!("basic set {} of the result has no point with fractions", i + 1));
        }
    }
    Ok(())
}

impl Case {
    fn new(rng: &mut Rng) -> Case {
        let n = 1 + rng.below(3);
        let world = World::with_axes(rng, n);
        let set = |rng: &mut Rng| match rng.below(6) {
            0 => vec![world.boxed(rng)],
            1 => [world.small(rng), vec![world.boxed(rng)]].concat(),
            2 | 3 => world.slots(rng),
            _ => world.small(rng),
        };
        let (a, b) = (numbered(&set(rng), rng), numbered(&set(rng), rng));
        let half = [12, 5, 3][n - 1];
        let (mut low, mut high) = ([0; 8], [0; 8]);
        for axis in 0..n {
            low[axis] = -half + rng.range(-2, 2) as i32;
            high[axis] = half + rng.range(-2, 2) as i32;
        }
        let points = points(n, &low, &high);
        Case { n, low, high, points, a, b }
    }

    /// Membership of every point of the box in the result against the definition.
    fn operation(self: &Rc<Case>, kind: &'static str) -> Check {
        let (a, b) = (hex(&encode(&self.a)), hex(&encode(&self.b)));
        let complement = kind == "complement";
        let call = if complement { format!("{kind} {} {ROOM} {a}", self.n) } else { format!("{kind} {} {ROOM} {a} {b}", self.n) };
        let case = Rc::clone(self);
        let allowed = match kind {
            "union" => self.a.len() + self.b.len() > 32,
            "intersection" => pairs_may_refuse(&self.a, &self.b),
            "complement" => may_refuse(&[model::Basic::default()], &self.a),
            _ => may_refuse(&self.a, &self.b),
        };
        Check { call, judge: Box::new(move |answer| case.judge_operation(kind, answer, allowed)) }
    }

    fn judge_operation(&self, kind: &str, answer: &str, allowed: bool) -> Verdict {
        let Some(found) = result(answer) else {
            let refused = answer.starts_with("refused 10 ") || answer.starts_with("refused 11 ");
            return if allowed && refused { Verdict::Untold } else { Verdict::Bad("no result".to_string()) };
        };
        let (a, b) = (meaning(&self.a), meaning(&self.b));
        let tested = match kind {
            "intersection" => true,
            "difference" => !b.is_empty(),
            "complement" => !a.is_empty(),
            _ => false,
        };
        if let (true, Err(story)) = (tested, kept_have_points(self.n, &found)) {
            return Verdict::Bad(story);
        }
        if let Err(story) = self.sources(kind).hold(&found) {
            return Verdict::Bad(story);
        }
        let wrong = self.points.iter().find(|p| {
            let (in_a, in_b) = (holds(&a, p), holds(&b, p));
            let right = match kind {
                "union" => in_a || in_b,
                "intersection" => in_a && in_b,
                "difference" => in_a && !in_b,
                _ => !in_a,
            };
            holds(&found, p) != right
        });
        verdict(wrong.is_none(), || format!("wrong at point {wrong:?}"))
    }

    /// The rules that a result of the operation may have.
    fn sources(&self, kind: &str) -> Sources {
        let (a, b) = (as_written(&self.a), as_written(&self.b));
        if kind == "complement" { Sources::of(kind, &[], &a) } else { Sources::of(kind, &a, &b) }
    }

    /// Pieces cut from one basic set by the first `cutters` basic sets of the second set: no point in two.
    fn pieces(self: &Rc<Case>, basic: usize, cutters: usize) -> Check {
        let (first, second) = (&self.a[basic..=basic], &self.b[..cutters]);
        let call = format!("difference {} {ROOM} {} {}", self.n, hex(&encode(first)), hex(&encode(second)));
        let allowed = may_refuse(first, second);
        let case = Rc::clone(self);
        Check {
            call,
            judge: Box::new(move |answer| match result(answer) {
                None if allowed && answer.starts_with("refused 1") => Verdict::Untold,
                None => Verdict::Bad("no result".to_string()),
                Some(found) => {
                    let twice = case.points.iter().find(|p| found.iter().filter(|b| b.holds(p)).count() > 1);
                    verdict(twice.is_none(), || format!("two pieces hold {twice:?}"))
                }
            }),
        }
    }

    fn search_call(&self, limit: u32, low: &[i32; 8]) -> String {
        let words = |p: &[i32; 8]| p.map(|x| x.to_string()).join(" ");
        format!("search {} {} {limit} {} {}", self.n, hex(&encode(&self.a)), words(low), words(&self.high))
    }

    /// The tally of the whole walk decides which limits are worth asking for.
    fn search(self: &Rc<Case>, rng: &mut Rng) -> Check {
        let set = meaning(&self.a);
        let walk = |limit| Walk { set: &set, n: self.n, low: self.low, high: self.high, limit, tally: 0 };
        let mut whole = walk(1_000_000);
        whole.answer();
        let limit = match rng.below(3) {
            0 => 1_000_000,
            1 => rng.range(1, i64::from(whole.tally) + 2) as u32,
            _ => (whole.tally + rng.below(3) as u32).max(2) - 1,
        };
        let expected = walk(limit).answer();
        let call = self.search_call(limit, &self.low);
        let first = self.points.iter().find(|p| holds(&set, *p)).map(|p| p[..self.n].to_vec());
        Check { call, judge: Box::new(move |answer| judge_search(answer, &expected, &first)) }
    }

    /// The box with a low over its high on one axis: it has no point, and no prefix is tested.
    fn shut_search(self: &Rc<Case>, rng: &mut Rng) -> Check {
        let axis = rng.below(self.n);
        let mut low = self.low;
        low[axis] = self.high[axis] + rng.range(1, 3) as i32;
        assert!(points(self.n, &low, &self.high).is_empty());
        let call = self.search_call(rng.range(1, 9) as u32, &low);
        Check { call, judge: Box::new(|answer| judge_search(answer, "none 0", &None)) }
    }

    /// A basic set intersected with the rule-less set: kept with its rules tightened, or dropped.
    fn dropping(self: &Rc<Case>, basic: model::Basic) -> Check {
        let call = format!("intersection {} {ROOM} {} 11", self.n, hex(&encode(std::slice::from_ref(&basic))));
        let case = Rc::clone(self);
        Check { call, judge: Box::new(move |answer| case.judge_dropping(&basic, answer)) }
    }

    /// Dropped where no point with fractions meets the tightened rules, or an equality is void, which a point with
    /// fractions may meet; and in both cases no integer point.
    fn judge_dropping(&self, basic: &model::Basic, answer: &str) -> Verdict {
        let Some(found) = result(answer) else { return Verdict::Bad("no result".to_string()) };
        let given = meaning(std::slice::from_ref(basic));
        if let Some(point) = self.points.iter().find(|p| found.is_empty() && holds(&given, p)) {
            return Verdict::Bad(format!("dropped, but holds {point:?}"));
        }
        let Some(tight) = tightened(basic).map(|tight| as_written(&[tight])) else {
            return verdict(found.is_empty(), || "kept with a void equality".to_string());
        };
        match has_point(self.n, &tight[0]) {
            None => Verdict::Untold,
            Some(true) => verdict(found == tight, || "should be kept with its rules tightened".to_string()),
            Some(false) => verdict(found.is_empty(), || "has no point with fractions".to_string()),
        }
    }

    fn member(self: &Rc<Case>, rng: &mut Rng) -> Check {
        let point = self.points[rng.below(self.points.len())];
        let words = point.map(|x| x.to_string()).join(" ");
        let call = format!("member {} {} {words}", self.n, hex(&encode(&self.a)));
        let expected = if holds(&meaning(&self.a), &point) { "in" } else { "out" };
        Check { call, judge: Box::new(move |answer| verdict(answer == expected, || format!("should be {expected}"))) }
    }

    /// As many points of the box as there may be, or fewer: bit i is whether point i is in.
    fn fleet(self: &Rc<Case>, rng: &mut Rng) -> Check {
        let count = rng.pick(&[0, 1, 7, 63, 64]);
        let list: Vec<[i32; 8]> = (0..count).map(|_| rng.pick(&self.points)).collect();
        let words: String = list.iter().flat_map(|p| &p[..self.n]).map(|x| format!(" {x}")).collect();
        let set = meaning(&self.a);
        let inside: Vec<usize> = (0..count).filter(|&i| holds(&set, &list[i])).collect();
        let mask: u64 = inside.iter().map(|i| 1 << i).sum();
        let expected = format!("{mask} {}", inside.len());
        let call = format!("fleet {} {}{words}", self.n, hex(&encode(&self.a)));
        Check { call, judge: Box::new(move |answer| verdict(answer == expected, || format!("should be {expected}"))) }
    }

    fn holder(self: &Rc<Case>, rng: &mut Rng) -> Check {
        let point = self.points[rng.below(self.points.len())];
        let words = point.map(|x| x.to_string()).join(" ");
        let call = format!("holder {} {} {} {words}", self.n, hex(&encode(&self.a)), hex(&encode(&self.b)));
        let find = |name: &str, set: &[model::Basic]| {
            let set = as_written(set);
            set.iter().find(|b| b.holds(&point)).map(|b| format!("{name} {} {}", b.offset, b.length))
        };
        let found = find("first", &self.a).or_else(|| find("second", &self.b));
        let expected = found.unwrap_or("first 0 0".to_string());
        Check { call, judge: Box::new(move |answer| verdict(answer == expected, || format!("should be {expected}"))) }
    }
}

fn judge_search(answer: &str, expected: &str, first: &Option<Vec<i32>>) -> Verdict {
    let words: Vec<&str> = answer.split(' ').collect();
    let by_points = match (words[0], first) {
        ("none", point) => point.is_none(),
        ("at", Some(point)) => words[1..words.len() - 1] == point.iter().map(i32::to_string).collect::<Vec<_>>(),
        ("spent", _) => true,
        _ => false,
    };
    verdict(by_points && answer == expected, || format!("should be {expected}; first point by enumeration {first:?}"))
}

/// A candidate of a cut, as given: rules of one basic set, some rules of another, and the opposite of one more.
/// Divisions are only appended: sharing them is not the test's matter.
fn candidate(rng: &mut Rng, first: &model::Basic, cutter: &model::Basic) -> model::Basic {
    let mut out = first.clone();
    let shift = first.divisions.len();
    out.divisions.extend(&cutter.divisions);
    let moved = |rule: &Rule| {
        let mut divisions = [0; 8];
        divisions[shift..].copy_from_slice(&rule.divisions[..8 - shift]);
        Rule { divisions, ..*rule }
    };
    let count = rng.below(cutter.rules.len() + 1);
    out.rules.extend(cutter.rules[..count].iter().map(moved));
    if let Some(rule) = cutter.rules.get(count).map(moved) {
        let (axes, divisions) = (rule.axes.map(|k| -k), rule.divisions.map(|k| -k));
        out.rules.push(Rule { equality: false, constant: -rule.constant - 1, axes, divisions, ..rule });
    }
    out
}

/// The test of a basic set against elimination; on numbers small enough it is never wide.
fn test(n: usize, basic: model::Basic, may_be_wide: bool) -> Check {
    let call = format!("test {n} {} 1", hex(&encode(std::slice::from_ref(&basic))));
    let judge = move |answer: &str| {
        let set = meaning(std::slice::from_ref(&basic));
        match (answer.split(' ').next(), has_point(n, &set[0])) {
            (Some("point"), Some(found)) => verdict(found, || "has no point with fractions".to_string()),
            (Some("dropped"), Some(found)) => verdict(!found, || "has a point with fractions".to_string()),
            (Some("point" | "dropped"), None) => Verdict::Untold,
            (Some("wide"), _) if may_be_wide => Verdict::Untold,
            _ if answer.starts_with("long 200 ") => Verdict::Untold,
            _ => Verdict::Bad("neither point nor dropped".to_string()),
        }
    };
    Check { call, judge: Box::new(judge) }
}

/// The test of tightened rules. Every number of such a tableau is at most a determinant of 8 rows, each no longer than
/// 13 (tight coefficients up to 3 and divisors up to 6, constants up to 10, or up to 12 beside one coefficient of 1),
/// so by Hadamard's inequality at most 13^8, inside the bound of 64 bits: wide is wrong here.
fn test_small(n: usize, tight: model::Basic) -> Check {
    test(n, tight, false)
}

/// The test of larger numbers, wide at 64 bits more often than not, and at times at 128 too.
fn test_wider(rng: &mut Rng) -> Check {
    let (n, basic) = wider::quick(rng);
    test(n, basic, true)
}

/// The checks of case number `index` of a seed.
pub fn checks(seed: u64, index: u64) -> Vec<Check> {
    let rng = &mut Rng::of(seed ^ 0x3EA9, index);
    let case = Rc::new(Case::new(rng));
    let mut out: Vec<Check> = ["union", "intersection", "difference", "complement"].map(|k| case.operation(k)).into();
    for basic in 0..case.a.len() {
        out.extend((1..=case.b.len()).map(|cutters| case.pieces(basic, cutters)));
    }
    out.extend([case.search(rng), case.search(rng), case.member(rng), case.holder(rng)]);
    for first in &case.a {
        let cut = case.b.iter().map(|cutter| candidate(rng, first, cutter));
        for basic in std::iter::once(first.clone()).chain(cut) {
            out.extend(tightened(&basic).map(|tight| test_small(case.n, tight)));
            out.push(case.dropping(basic));
        }
    }
    out.push(test_wider(rng));
    out.push(case.shut_search(rng));
    out.push(case.fleet(rng));
    out
}
