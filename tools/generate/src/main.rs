//! `generate scripts COUNT SEED DIR|-`   scripts as files `000000.bin` .. in DIR, or as hex lines
//! `generate calls COUNT SEED [KIND..]`  line-mode calls
//! `generate histogram COUNT SEED`       what COUNT scripts and as many calls reach
//! `generate tests COUNT SEED`           what COUNT calls of the test reach: how many are wide at 64 bits, how these end,
//!                                       and which rows their exchanges build
//! `generate searches COUNT SEED`        what COUNT calls of the search reach: long runs of failing prefixes, by the rules
//!                                       that fail and by where the limit falls
//! `generate counts COUNT SEED`          what COUNT calls of the count reach: sets, chosen axes, refusals, limits
//! `generate ranges COUNT SEED`          what COUNT calls of the range reach: answers, sets, boxes, limits, tables,
//!                                       refusals
//! `generate fleets COUNT SEED`          what COUNT calls of the fleet reach: lists, refusals, which points are in
//! `generate extremes COUNT SEED`        what COUNT calls of greatest and least reach: expressions, refusals, answers in
//!                                       either half, turns of the second one
//! `generate states COUNT SEED`          what COUNT walks of named states reach: starts, additions by their row and their
//!                                       pivots, marks, refusals
//! `generate numbers COUNT SEED KIND..`  what the numbers of rules reach in COUNT calls of these kinds: `check` (and
//!                                       `part`), or operations

use generate::histogram::Counts;
use generate::{calls, counting, extremes, fleets, histogram, numbers, ranges, runs, scripts, states};
use hexscript::tokens::hex;
use std::io::Write;
use std::process::ExitCode;

const USAGE: &str = "generate scripts COUNT SEED DIR|- | calls COUNT SEED [KIND..] | \
                     histogram|tests|searches|counts|ranges|fleets|extremes|states COUNT SEED | \
                     numbers COUNT SEED KIND..";

/// One test in so many has to be wide at 64 bits.
const CARRIED_ONE_IN: u64 = 25;

fn write_scripts(count: u64, seed: u64, place: &str) -> Result<ExitCode, String> {
    let mut out = std::io::BufWriter::new(std::io::stdout().lock());
    for index in 0..count {
        let script = scripts::script(seed, index);
        let done = if place == "-" {
            writeln!(out, "{}", hex(&script))
        } else {
            std::fs::write(format!("{place}/{index:06}.bin"), &script)
        };
        done.map_err(|e| format!("{place}: {e}"))?;
    }
    Ok(ExitCode::SUCCESS)
}

fn write_calls(count: u64, seed: u64, kinds: &[&str]) -> Result<ExitCode, String> {
    if let Some(kind) = kinds.iter().find(|k| !calls::KINDS.contains(k)) {
        return Err(format!("no kind '{kind}'; kinds: {}", calls::KINDS.join(" ")));
    }
    let kinds = if kinds.is_empty() { &calls::KINDS[..] } else { kinds };
    let mut out = std::io::BufWriter::new(std::io::stdout().lock());
    for index in 0..count {
        writeln!(out, "{}", calls::call(seed, index, kinds)).map_err(|e| e.to_string())?;
    }
    Ok(ExitCode::SUCCESS)
}

fn count_of(counts: &Counts, name: &str) -> usize {
    counts.get(name).copied().unwrap_or(0)
}

/// Each wanted name is a check: it must occur among the scripts and among the calls (14 and 15 are of scripts only; a
/// test of its own, a count, a range, a fleet, greatest and least and walks are of calls only; what calls of the test
/// build is for `tests` to say).
fn print_histogram(count: u64, seed: u64) -> ExitCode {
    let by_scripts = histogram::of_scripts(count, seed);
    let by_calls = histogram::of_calls(count, seed);
    let wanted = histogram::wanted();
    let line = |name: &String| {
        let (s, c) = (count_of(&by_scripts, name), count_of(&by_calls, name));
        println!("{name:<34} {s:>9} {c:>9}");
        (s, c)
    };
    println!("{:<34} {:>9} {:>9}", "", "scripts", "calls");
    let mut passed = 0;
    for name in &wanted {
        let (s, c) = line(name);
        let script_only = name == "refused 14" || name == "refused 15" || name.starts_with("built");
        let asked_only = histogram::asked_only().any(|asked| asked == name);
        let call_only = name.starts_with("test carried") || asked_only;
        passed += usize::from((s > 0 || call_only) && (c > 0 || script_only));
    }
    for name in by_calls.keys().filter(|name| !wanted.contains(name)) {
        line(name);
    }
    let failed = wanted.len() - passed;
    println!("{passed} passed, {failed} failed");
    ExitCode::from(u8::from(failed > 0))
}

/// How many of the tests are wide at 64 bits and how these end. Checks: enough of them are, and each answer at 128 bits
/// is that of some of them.
fn print_carried(counts: &Counts, count: u64) -> Vec<bool> {
    let ended = |answer| count_of(counts, &histogram::carried("test", answer));
    let all: usize = histogram::ANSWERS.map(ended).iter().sum();
    let least = count.div_ceil(CARRIED_ONE_IN);
    let endings = histogram::ANSWERS.map(|answer| format!("{answer} {}", ended(answer)));
    println!("{all} of {count} tests are wide at 64 bits ({least} are wanted); at 128 bits: {}", endings.join(", "));
    let present = histogram::ANSWERS.map(|answer| ended(answer) > 0);
    std::iter::once(all as u64 >= least).chain(present).collect()
}

/// How many there are of each name. Checks: there are some.
fn print_each(counts: &Counts, names: &[String]) -> Vec<bool> {
    let kinds: Vec<String> = names.iter().map(|name| format!("{name}: {}", count_of(counts, name))).collect();
    println!("{}", kinds.join("; "));
    names.iter().map(|name| count_of(counts, name) > 0).collect()
}

fn print_tests(count: u64, seed: u64) -> ExitCode {
    let counts = histogram::of_tests(count, seed);
    closing(&[print_carried(&counts, count), print_each(&counts, &histogram::built_names())].concat())
}

fn print_searches(count: u64, seed: u64) -> ExitCode {
    let names: Vec<String> = histogram::SHUT.into_iter().chain(runs::EVENTS).map(str::to_string).collect();
    closing(&print_each(&histogram::of_searches(count, seed), &names))
}

fn print_counts(count: u64, seed: u64) -> ExitCode {
    closing(&print_each(&histogram::of_counts(count, seed), &counting::EVENTS.map(str::to_string)))
}

fn print_ranges(count: u64, seed: u64) -> ExitCode {
    closing(&print_each(&histogram::of_ranges(count, seed), &ranges::EVENTS.map(str::to_string)))
}

fn print_fleets(count: u64, seed: u64) -> ExitCode {
    closing(&print_each(&histogram::of_fleets(count, seed), &fleets::EVENTS.map(str::to_string)))
}

fn print_extremes(count: u64, seed: u64) -> ExitCode {
    closing(&print_each(&histogram::of_extremes(count, seed), &extremes::EVENTS.map(str::to_string)))
}

fn print_states(count: u64, seed: u64) -> ExitCode {
    closing(&print_each(&histogram::of_states(count, seed), &states::EVENTS.map(str::to_string)))
}

fn print_numbers(count: u64, seed: u64, kinds: &[&str]) -> ExitCode {
    let reached: &[&str] = if kinds.contains(&"check") { &numbers::OF_SETS } else { &numbers::OF_OPERATIONS };
    let names: Vec<String> = reached.iter().map(|name| name.to_string()).collect();
    closing(&print_each(&histogram::of_numbers(count, seed, kinds), &names))
}

fn closing(checks: &[bool]) -> ExitCode {
    let passed = checks.iter().filter(|&&good| good).count();
    let failed = checks.len() - passed;
    println!("{passed} passed, {failed} failed");
    ExitCode::from(u8::from(failed > 0))
}

fn run(words: &[&str]) -> Result<ExitCode, String> {
    let number = |w: &str| w.parse::<u64>().map_err(|_| format!("'{w}' is no number"));
    match words {
        ["scripts", count, seed, place] => write_scripts(number(count)?, number(seed)?, place),
        ["calls", count, seed, kinds @ ..] => write_calls(number(count)?, number(seed)?, kinds),
        ["histogram", count, seed] => Ok(print_histogram(number(count)?, number(seed)?)),
        ["tests", count, seed] => Ok(print_tests(number(count)?, number(seed)?)),
        ["searches", count, seed] => Ok(print_searches(number(count)?, number(seed)?)),
        ["counts", count, seed] => Ok(print_counts(number(count)?, number(seed)?)),
        ["ranges", count, seed] => Ok(print_ranges(number(count)?, number(seed)?)),
        ["fleets", count, seed] => Ok(print_fleets(number(count)?, number(seed)?)),
        ["extremes", count, seed] => Ok(print_extremes(number(count)?, number(seed)?)),
        ["states", count, seed] => Ok(print_states(number(count)?, number(seed)?)),
        ["numbers", count, seed, kinds @ ..] if !kinds.is_empty() => {
            Ok(print_numbers(number(count)?, number(seed)?, kinds))
        }
        _ => Err(USAGE.to_string()),
    }
}

fn main() -> ExitCode {
    let arguments: Vec<String> = std::env::args().skip(1).collect();
    let words: Vec<&str> = arguments.iter().map(String::as_str).collect();
    run(&words).unwrap_or_else(|e| {
        eprintln!("{e}");
        ExitCode::FAILURE
    })
}
