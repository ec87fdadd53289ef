//! What the generated scripts and calls reach, by `second`.

use crate::{calls, counting, events, extremes, fleets, numbers, ranges, runs, scripts, states};
use hexscript::layout::{cut, find, set_of, AXES, END, LOAD, SCRIPT};
use hexscript::tokens::unhex;
use second::algebra::{complement, difference, intersection, union, Watch};
use second::ask::{check_corners, check_limit, Sides};
use second::script::TABLE_BYTES;
use second::test::test;
use second::{parse, BasicSet, Outcome, Set};
use std::collections::BTreeMap;

/// Counts by name.
pub type Counts = BTreeMap<String, usize>;

pub(crate) fn bump(counts: &mut Counts, name: &str) {
    *counts.entry(name.to_string()).or_default() += 1;
}

/// The answers of a test.
pub const ANSWERS: [&str; 4] = ["point", "dropped", "long", "wide"];

/// Where a test can be carried into 128 bits: by a call of its own, and by the operations with candidates.
const TESTING: [&str; 4] = ["test", "intersection", "difference", "complement"];

/// The name of a carried test by what makes it and by its answer.
pub fn carried(kind: &str, answer: &str) -> String {
    format!("{kind} carried, {answer}")
}

/// The sizes of numbers at which a test's exchanges are made.
const SIZES: [&str; 3] = ["64 bits", "both sizes", "128 bits"];

/// What the exchanges of a test build: no pivot, at each its own row alone of several, at each every row, or neither.
pub fn built_names() -> Vec<String> {
    let named = ["built nothing", "built own row only"].map(str::to_string);
    let sized = SIZES.iter().flat_map(|size| ["every row", "some rows"].map(|rows| format!("built {rows} at {size}")));
    named.into_iter().chain(sized).collect()
}

fn size(outcome: Outcome) -> &'static str {
    match outcome.carried {
        Some(0) => "128 bits",
        Some(before) if before < outcome.pivots => "both sizes",
        _ => "64 bits",
    }
}

/// Counts a test by what its exchanges build.
fn count_built(basic: &BasicSet, outcome: Outcome, counts: &mut Counts) {
    let rows = (2 * basic.divisions.len() + basic.rules.len()) as u32;
    let name = match (outcome.pivots, outcome.built) {
        (0, _) => "built nothing".to_string(),
        (pivots, built) if built == pivots * rows => format!("built every row at {}", size(outcome)),
        (pivots, built) if built == pivots => "built own row only".to_string(),
        _ => format!("built some rows at {}", size(outcome)),
    };
    bump(counts, &name);
}

/// What only a call can reach: the count is no command of a script.
pub const COUNTING: [&str; 5] = ["refused 19", "count count", "count spent", "counts count", "counts spent"];
/// The same of the range.
pub const RANGES: [&str; 4] = ["range sure", "range never", "range depends", "range spent"];
/// What only a call can reach: the fleet is no command of a script.
pub const FLEET: [&str; 2] = ["refused 16", "fleet seen"];
/// The same of greatest and least.
pub const EXTREMES: [&str; 10] = [
    "greatest value",
    "greatest empty",
    "greatest unbounded",
    "greatest wide",
    "greatest long",
    "least value",
    "least empty",
    "least unbounded",
    "least wide",
    "least long",
];

/// The same of named states.
pub const STATES: [&str; 6] =
    ["refused 18", "states point", "states empty", "states wide", "states long", "states none"];

/// All that only a call can reach.
pub fn asked_only() -> impl Iterator<Item = &'static str> {
    COUNTING.into_iter().chain(RANGES).chain(FLEET).chain(EXTREMES).chain(STATES)
}

/// Every name that has to occur.
pub fn wanted() -> Vec<String> {
    let refusals = (1..=15).chain([17]).map(|k| format!("refused {k}"));
    let tests = ANSWERS.iter().map(|answer| format!("test {answer}"));
    let asking = ["search at", "search none", "search spent"].into_iter().chain(asked_only()).chain(SHUT);
    let carried = TESTING.iter().flat_map(|kind| ANSWERS.map(|answer| carried(kind, answer)));
    let numbers = numbers::OF_SETS.into_iter().chain(numbers::OF_OPERATIONS);
    let others = asking.chain(events::EVENTS).chain(runs::EVENTS).chain(numbers).map(str::to_string);
    refusals.chain(tests).chain(others).chain(carried).chain(built_names()).collect()
}

/// Counts a test that was carried into 128 bits.
fn count_carried(kind: &str, outcome: Outcome, counts: &mut Counts) {
    if outcome.carried.is_some() {
        bump(counts, &carried(kind, outcome.answer.word()));
    }
}

/// Counts the refusals and search outcomes of a script's output, line by line.
fn count_output(output: &[u8], counts: &mut Counts) {
    for line in String::from_utf8_lossy(output).lines() {
        match line.split(' ').next().unwrap_or("") {
            "refused" => bump(counts, line),
            word @ ("at" | "none" | "spent") => bump(counts, &format!("search {word}")),
            _ => {}
        }
    }
}

/// The bytes of the commands after `10`, up to the first that is no whole one, another `10` or `00`.
fn commands(script: &[u8]) -> Vec<&[u8]> {
    let mut out = Vec::new();
    let mut rest = script.get(2..).unwrap_or(&[]);
    while let Ok((command, own)) = cut(SCRIPT, rest) {
        if [AXES, END].contains(&command.code) {
            break;
        }
        out.push(own);
        rest = &rest[own.len()..];
    }
    out
}

/// The operation of a command, if it is one that tests candidates.
fn kind_of(command: &[u8]) -> &'static str {
    match command[0] {
        0x42 => "intersection",
        0x43 => "difference",
        0x44 => "complement",
        _ => "",
    }
}

/// The result of such an operation, every candidate shown to `watch`.
fn operate(kind: &str, a: &Set, b: &Set, watch: &mut Watch) -> Option<Set> {
    match kind {
        "intersection" => intersection(a, b, watch).ok(),
        "difference" => difference(a, b, watch).ok(),
        "complement" => complement(a, watch).ok(),
        _ => None,
    }
}

/// The set that a command gives.
fn result(n: u8, command: &[u8], sets: &[Set], watch: &mut Watch) -> Option<Set> {
    let set = |i: usize| sets.get(usize::from(command[i]));
    match command[0] {
        0x40 => parse(n, set_of(command)).ok(),
        0x41 => union(set(2)?, set(3)?).ok(),
        0x42..=0x44 => operate(kind_of(command), set(2)?, set(command.len() - 1)?, watch),
        _ => None,
    }
}

/// Counts what tightening does in an operation.
fn count_events(kind: &str, a: &Set, b: &Set, counts: &mut Counts) {
    match kind {
        "intersection" => events::of_intersection(a, b, counts),
        "difference" => events::of_difference(a, b, counts),
        "complement" => events::of_difference(&Set::everything(a.n), a, counts),
        _ => {}
    }
}

/// Windows that shut before they open.
pub const SHUT: [&str; 2] = ["shut on the first axis", "shut on a later axis only"];

/// Counts a search that is not refused: a shut window, or else its runs.
fn count_search(set: &Set, limit: u32, sides: &Sides, counts: &mut Counts) {
    if check_corners(set.n, sides).is_err() || check_limit(limit).is_err() {
        return;
    }
    if sides.is_shut() {
        bump(counts, SHUT[usize::from(sides.low[0] <= sides.high[0])]);
    } else {
        runs::count(set, sides, limit, counts);
    }
}

/// The limit and the box of a command `47`.
fn asked(command: &[u8]) -> (u32, Sides) {
    let number = |at: usize| i32::from_le_bytes([0, 1, 2, 3].map(|i| command[at + i]));
    let eight = |at: usize| [0, 1, 2, 3, 4, 5, 6, 7].map(|i| number(at + 4 * i));
    (number(2) as u32, Sides { low: eight(6), high: eight(38) })
}

/// Counts the answers of the tests that a script's operations make, what they tighten, the numbers of its rules, its
/// shut windows, and the runs of its other searches.
/// Its output shows none of these.
fn count_tests(script: &[u8], counts: &mut Counts) {
    let Some(&[0x10, n @ 1..=8]) = script.get(..2) else { return };
    let mut sets = vec![Set::empty(usize::from(n)); 4];
    for command in commands(script) {
        let target = usize::from(command[1]);
        if target > 3 {
            continue;
        }
        if command[0] == 0x47 {
            let (limit, sides) = asked(command);
            count_search(&sets[target], limit, &sides, counts);
        }
        if command[0] == LOAD {
            numbers::of_set(n, set_of(command), counts);
        }
        let kind = kind_of(command);
        let set = |i: usize| command.get(i).and_then(|&number| sets.get(usize::from(number)));
        if let (Some(a), Some(b)) = (set(2), set(command.len() - 1)) {
            count_events(kind, a, b, counts);
            let word = find(SCRIPT, command[0]).map_or("", |command| command.word);
            numbers::of_operation(word, a, b, TABLE_BYTES, counts);
        }
        let mut watch = |candidate: &BasicSet, outcome: Outcome| {
            bump(counts, &format!("test {}", outcome.answer.word()));
            count_carried(kind, outcome, counts);
            count_built(candidate, outcome, counts);
        };
        if let Some(set) = result(n, command, &sets, &mut watch) {
            if second::encode(&set).len() <= TABLE_BYTES {
                sets[target] = set;
            }
        }
    }
}

pub fn of_scripts(count: u64, seed: u64) -> Counts {
    let mut counts = Counts::new();
    for index in 0..count {
        let script = scripts::script(seed, index);
        count_output(&second::run_script(&script), &mut counts);
        count_tests(&script, &mut counts);
    }
    counts
}

/// Counts what the numbers of rules reach in a call of the check, or in an operation on good sets.
fn count_numbers(call: &str, counts: &mut Counts) {
    let words: Vec<&str> = call.split(' ').collect();
    let (Some(kind), Some(Ok(n))) = (words.first(), words.get(1).map(|n| n.parse())) else { return };
    if let ("check", Some(bytes)) = (*kind, words.get(2).and_then(|word| unhex(word))) {
        numbers::of_set(n, &bytes, counts);
    }
    let set = |word: &str| parse(n, &unhex(word)?).ok();
    let [_, _, room, first, ..] = words[..] else { return };
    if let (Ok(room), Some(a), Some(b)) = (room.parse(), set(first), set(words[words.len() - 1])) {
        numbers::of_operation(kind, &a, &b, room, counts);
    }
}

/// The same of so many calls of these kinds.
pub fn of_numbers(count: u64, seed: u64, kinds: &[&str]) -> Counts {
    let mut counts = Counts::new();
    (0..count).for_each(|index| count_numbers(&calls::call(seed, index, kinds), &mut counts));
    counts
}

/// Counts what the operation of a call tightens and carries, where its sets are good.
fn count_operation(call: &str, counts: &mut Counts) {
    let words: Vec<&str> = call.split(' ').collect();
    let [kind, n, _, first, ..] = words[..] else { return };
    let set = |word: &str| parse(n.parse().ok()?, &unhex(word)?).ok();
    if let (Some(a), Some(b)) = (set(first), set(words[words.len() - 1])) {
        count_events(kind, &a, &b, counts);
        operate(kind, &a, &b, &mut |_: &BasicSet, outcome: Outcome| count_carried(kind, outcome, counts));
    }
}

/// The basic set of a call of the test and its number of axes, where the set is good and has that basic set.
fn tested(call: &str) -> Option<(usize, BasicSet)> {
    let words: Vec<&str> = call.split(' ').collect();
    let ["test", n, set, k] = words[..] else { return None };
    let mut set = parse(n.parse().ok()?, &unhex(set)?).ok()?;
    let index = k.parse::<usize>().ok()?.checked_sub(1)?;
    (index < set.basics.len()).then(|| (set.n, set.basics.swap_remove(index)))
}

/// Counts the test of a call by its carry and by what its exchanges build.
fn count_tested(call: &str, counts: &mut Counts) {
    if let Some((n, basic)) = tested(call) {
        let outcome = test(n, &basic);
        count_carried("test", outcome, counts);
        count_built(&basic, outcome, counts);
    }
}

/// Counts a call of the search.
fn count_searched(call: &str, counts: &mut Counts) {
    let words: Vec<&str> = call.split(' ').collect();
    let ["search", n, bytes, limit, coordinates @ ..] = &words[..] else { return };
    let set = || parse(n.parse().ok()?, &unhex(bytes)?).ok();
    let numbers: Vec<i32> = coordinates.iter().filter_map(|word| word.parse().ok()).collect();
    let eight = |at: usize| numbers.get(at..at + 8)?.try_into().ok();
    if let (Some(set), Ok(limit), Some(low), Some(high)) = (set(), limit.parse(), eight(0), eight(8)) {
        count_search(&set, limit, &Sides { low, high }, counts);
    }
}

/// The same of so many calls of the test.
pub fn of_tests(count: u64, seed: u64) -> Counts {
    let mut counts = Counts::new();
    (0..count).for_each(|index| count_tested(&calls::call(seed, index, &["test"]), &mut counts));
    counts
}

/// The shut windows and the long runs of so many calls of the search.
pub fn of_searches(count: u64, seed: u64) -> Counts {
    let mut counts = Counts::new();
    (0..count).for_each(|index| count_searched(&calls::call(seed, index, &["search"]), &mut counts));
    counts
}

/// The kinds of so many calls of the count.
pub fn of_counts(count: u64, seed: u64) -> Counts {
    let mut counts = Counts::new();
    (0..count).for_each(|index| counting::count(&calls::call(seed, index, &["count", "counts"]), &mut counts));
    counts
}

/// What so many calls of the range reach.
pub fn of_ranges(count: u64, seed: u64) -> Counts {
    let mut counts = Counts::new();
    (0..count).for_each(|index| ranges::count(&calls::call(seed, index, &["range"]), &mut counts));
    counts
}

/// What so many calls of the fleet reach.
pub fn of_fleets(count: u64, seed: u64) -> Counts {
    let mut counts = Counts::new();
    (0..count).for_each(|index| fleets::count(&calls::call(seed, index, &["fleet"]), &mut counts));
    counts
}

/// What so many calls of greatest and least reach.
pub fn of_extremes(count: u64, seed: u64) -> Counts {
    let mut counts = Counts::new();
    (0..count).for_each(|index| extremes::count(&calls::call(seed, index, &["greatest", "least"]), &mut counts));
    counts
}

/// What so many walks of named states reach.
pub fn of_states(count: u64, seed: u64) -> Counts {
    let mut counts = Counts::new();
    (0..count).for_each(|index| states::count(&calls::call(seed, index, &["states"]), &mut counts));
    counts
}

/// Counts what one call of a walk says.
fn count_said(said: &str, counts: &mut Counts) {
    let refused = said.starts_with("refused");
    bump(counts, &if refused { said.to_string() } else { format!("states {said}") });
}

pub fn of_calls(count: u64, seed: u64) -> Counts {
    let mut counts = Counts::new();
    for index in 0..count {
        let call = calls::call(seed, index, &calls::KINDS);
        count_numbers(&call, &mut counts);
        count_operation(&call, &mut counts);
        count_tested(&call, &mut counts);
        count_searched(&call, &mut counts);
        let answer = second::run_call(&call);
        let kind = call.split(' ').next().unwrap_or("");
        if kind == "states" {
            answer.split(" ; ").for_each(|said| count_said(said, &mut counts));
            continue;
        }
        let words: Vec<&str> = answer.split(' ').collect();
        match (kind, words[0]) {
            ("check", "0") => bump(&mut counts, "check 0"),
            ("check", number) => bump(&mut counts, &format!("refused {number}")),
            (_, "refused") => bump(&mut counts, &format!("refused {}", words[1])),
            ("search" | "test" | "member" | "holder", word) => bump(&mut counts, &format!("{kind} {word}")),
            ("fleet", _) => bump(&mut counts, "fleet seen"),
            ("part", _) => bump(&mut counts, if words == ["0", "0"] { "part empty" } else { "part given" }),
            (_, word) => bump(&mut counts, &format!("{kind} {word}")),
        }
    }
    counts
}
