//! Walks of named states (document 02, request 8) by what they mean: point and empty by elimination or, where that is
//! too large, by a fresh test without a limit; marks by a clock; and the same rules say the same, whatever was between.

use crate::cases::{Check, Verdict};
use crate::fractions::{has_point, rows};
use crate::sets::{read, Basic, Division, Rule};
use crate::vertices::choices;
use generate::plans::{small, Plan};
use generate::rng::Rng;
use generate::walks;
use hexscript::layout::{find, CONSTANT, EQUALITY, INEQUALITY, SET};
use hexscript::tokens::unhex;
use second::test::{test_limited, Answer};
use std::collections::HashMap;

/// Axes and divisions, and rules, up to which elimination is tried.
const MOST_VARIABLES: usize = 4;
const MOST_RULES: usize = 14;
/// Document 000's bound for 128 bits.
const BOUND: f64 = 9_223_372_036_854_775_807.0;
const PIVOTS: usize = 200;
const LARGEST: i128 = 32_767;

/// A start and the rules added since, in bytes, without their numbers: what a state says depends on nothing else.
#[derive(Clone, PartialEq, Eq, Hash)]
struct Path {
    n: usize,
    bytes: Vec<u8>,
    rules: usize,
}

#[derive(Clone)]
struct State {
    path: Path,
    says: String,
}

/// The desk by the clock.
#[derive(Default)]
struct Desk {
    now: Option<State>,
    /// When each name was marked last, and what it holds.
    marks: HashMap<u64, (usize, State)>,
    clock: usize,
    /// What was said of each path.
    said: HashMap<Path, String>,
    /// Words of which nothing could be told.
    untold: usize,
}

type Told = Result<(), String>;

fn told(good: bool, story: impl FnOnce() -> String) -> Told {
    if good { Ok(()) } else { Err(story()) }
}

fn should_be(word: &str, expected: &str) -> Told {
    told(word == expected, || format!("should be {expected}"))
}

impl Path {
    fn basic(&self) -> Basic {
        read(&self.bytes).expect("a set").remove(0)
    }

    /// Whether a point with fractions meets the rules and the bounds; nothing where it cannot be told.
    fn has_point(&self) -> Option<bool> {
        let basic = self.basic();
        let variables = self.n + basic.divisions.len();
        let small = variables <= MOST_VARIABLES && basic.rules.len() <= MOST_RULES;
        let eliminated = if small { has_point(self.n, &basic) } else { None };
        eliminated.or_else(|| {
            let set = second::parse(self.n as u8, &self.bytes).expect("a good set");
            match test_limited(self.n, &set.basics[0], None).answer {
                Answer::Point => Some(true),
                Answer::Dropped => Some(false),
                _ => None,
            }
        })
    }

    /// Every number of a tableau is at most a determinant of its rows, one for each variable and one more: by
    /// Hadamard's inequality at most the product of their lengths. A row on its way has at most a coefficient times two
    /// of these.
    fn may_be_wide(&self) -> bool {
        let (mut all, equalities) = rows(self.n, &self.basic());
        all.extend(equalities);
        let mut lengths: Vec<i128> = all.iter().map(|row| row.iter().map(|number| number.abs()).sum()).collect();
        lengths.sort_unstable_by(|a, b| b.cmp(a));
        let columns = self.n + self.basic().divisions.len();
        let product: f64 = lengths.iter().take(columns + 1).map(|&length| length.max(1) as f64).product();
        product * product * LARGEST as f64 > BOUND
    }

    /// No choice of columns comes back (document 02, request 14).
    fn may_be_long(&self) -> bool {
        let basic = self.basic();
        let columns = self.n + basic.divisions.len();
        choices(2 * basic.divisions.len() + basic.rules.len() + columns, columns) > PIVOTS
    }

    fn with(&self, rule: &[u8]) -> Path {
        Path { n: self.n, bytes: [&self.bytes[..], &plain(rule)].concat(), rules: self.rules + 1 }
    }
}

/// The rule's command without its number.
fn plain(rule: &[u8]) -> Vec<u8> {
    let command = find(SET, rule[0]).expect("a rule");
    let code = if command.is_equality() { EQUALITY } else { INEQUALITY };
    [&[code], &rule[command.place(CONSTANT).expect("a rule")..]].concat()
}

fn out_of_range(coefficients: &[i128]) -> bool {
    coefficients.iter().any(|k| k.abs() > LARGEST)
}

fn not_all_0(coefficients: &[i128]) -> bool {
    coefficients.iter().any(|&k| k != 0)
}

fn division_refused(n: usize, division: &Division) -> Option<u8> {
    match division {
        Division { d: 0 | 32_768.., .. } => Some(6),
        Division { c, axes, .. } if c.abs() > 1_000_000_000 || out_of_range(axes) => Some(7),
        Division { axes, .. } if not_all_0(&axes[n..]) => Some(8),
        _ => None,
    }
}

/// 1, then each division as it comes 9, 6, 7, 8.
fn start_refused(n: usize, divisions: &[Division]) -> Option<u8> {
    if n == 0 || n > 8 {
        return Some(1);
    }
    let mut each = divisions.iter().enumerate();
    each.find_map(|(place, division)| if place == 8 { Some(9) } else { division_refused(n, division) })
}

/// 7, 8, 10.
fn add_refused(path: &Path, rule: &Rule) -> Option<u8> {
    let low = rule.equality && rule.constant < -2_147_483_647;
    let absent = || not_all_0(&rule.places[path.n..8]) || not_all_0(&rule.places[8 + path.basic().divisions.len()..]);
    match () {
        () if low || out_of_range(&rule.places) => Some(7),
        () if absent() => Some(8),
        () if path.rules == 48 => Some(10),
        () => None,
    }
}

impl Desk {
    /// Judges the word of one step, and follows it.
    fn step(&mut self, step: &str, word: &str) -> Told {
        let fields: Vec<&str> = step.split(' ').collect();
        self.clock += 1;
        match fields[..] {
            ["start", n, divisions] => self.start(n.parse().expect("axes"), divisions, word),
            ["add", rule] => self.add(rule, word),
            ["mark", name] => self.mark(name.parse().expect("a name"), word),
            ["back", name] => self.back(name.parse().expect("a name"), word),
            _ => Err("no step".to_string()),
        }
    }

    /// Judges what is said of rules that no one has added before, or holds it against what was said of them.
    fn says(&mut self, path: Path, word: &str) -> Told {
        if let Some(said) = self.said.get(&path) {
            should_be(word, said)?;
        } else {
            match word {
                "point" | "empty" => match path.has_point() {
                    Some(found) => should_be(word, if found { "point" } else { "empty" })?,
                    None => self.untold += 1,
                },
                "wide" => told(path.may_be_wide(), || "no number is so large".to_string())?,
                "long" => told(path.may_be_long(), || "there are no 200 choices of columns".to_string())?,
                _ => return Err("no word of a state".to_string()),
            }
            self.said.insert(path.clone(), word.to_string());
        }
        self.now = Some(State { path, says: word.to_string() });
        Ok(())
    }

    fn start(&mut self, n: usize, divisions: &str, word: &str) -> Told {
        let bytes = [vec![0x11], unhex(divisions).expect("bytes")].concat();
        let path = Path { n, bytes, rules: 0 };
        if let Some(number) = start_refused(n, &path.basic().divisions) {
            return should_be(word, &format!("refused {number}"));
        }
        self.marks.clear();
        told(word == "point" || word == "wide", || "a start has a point".to_string())?;
        self.says(path, word)
    }

    fn add(&mut self, rule: &str, word: &str) -> Told {
        let Some(State { path, says }) = &self.now else { return should_be(word, "none") };
        let bytes = unhex(rule).expect("bytes");
        let read = read(&[&[0x11], &bytes[..]].concat()).expect("a rule").remove(0).rules.remove(0);
        if let Some(number) = add_refused(path, &read) {
            return should_be(word, &format!("refused {number}"));
        }
        let grown = path.with(&bytes);
        if says != "point" {
            should_be(word, says)?;
        }
        self.says(grown, word)
    }

    fn mark(&mut self, name: u64, word: &str) -> Told {
        if name > 15 {
            return should_be(word, "refused 18");
        }
        let Some(state) = &self.now else { return should_be(word, "none") };
        self.marks.insert(name, (self.clock, state.clone()));
        should_be(word, &state.says)
    }

    fn back(&mut self, name: u64, word: &str) -> Told {
        let Some((time, state)) = self.marks.get(&name).cloned() else { return should_be(word, "refused 18") };
        self.marks.retain(|_, (marked, _)| *marked <= time);
        should_be(word, &state.says)?;
        self.now = Some(state);
        Ok(())
    }
}

fn judge(call: &str, answer: &str) -> Verdict {
    let steps: Vec<&str> = call.trim_start_matches("states ").split(" ; ").collect();
    let words: Vec<&str> = answer.split(" ; ").collect();
    if steps.len() != words.len() {
        return Verdict::Bad(format!("{} words for {} calls", words.len(), steps.len()));
    }
    let mut desk = Desk::default();
    for (place, (step, word)) in steps.iter().zip(words).enumerate() {
        if let Err(story) = desk.step(step, word) {
            return Verdict::Bad(format!("call {}, {step}, says {word}: {story}", place + 1));
        }
    }
    if desk.untold > 0 { Verdict::Untold } else { Verdict::Good }
}

/// A small plan, few enough variables for elimination.
fn smallest(rng: &mut Rng) -> Plan {
    loop {
        let plan = small(rng);
        if plan.n + plan.divisions.len() <= MOST_VARIABLES {
            return plan;
        }
    }
}

/// Check number `index` of a seed: a walk of any kind, or a small one.
pub fn check(seed: u64, index: u64) -> Check {
    let rng = &mut Rng::of(seed ^ 0x57A7, index);
    let call = if rng.chance(50) {
        walks::call(rng)
    } else {
        let plan = smallest(rng);
        walks::of_plan(rng, plan)
    };
    let judged = call.clone();
    Check { call, judge: Box::new(move |answer| judge(&judged, answer)) }
}
