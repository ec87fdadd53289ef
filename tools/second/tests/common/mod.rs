//! What the tests share: sets from listing lines, scripts piece by piece.
#![allow(dead_code)]

use second::calls::hex;
use second::listing::{read_basic, read_set};
use second::{encode, run_call, run_script, BasicSet, Set};

/// The bytes of a set given as listing lines with `;` between them, each
/// basic set opened by `basic`. `rule M` before a rule's line, which no
/// listing has, gives it the number M.
pub fn set(n: usize, lines: &str) -> Vec<u8> {
    let mut numbers = Vec::new();
    let mut plain = String::new();
    for line in lines.split(';').map(str::trim) {
        let (number, line) = numbered(line);
        if line.starts_with("ge") || line.starts_with("eq") {
            numbers.push(number);
        }
        plain.push_str(&format!("{line}\n"));
    }
    let mut set = read_set(n, &plain).expect("listing lines");
    let rules = set.basics.iter_mut().flat_map(|basic| &mut basic.rules);
    rules.zip(numbers).for_each(|(rule, number)| rule.number = number);
    encode(&set)
}

/// A line with its number, 0 where it has none.
fn numbered(line: &str) -> (u16, &str) {
    let Some(given) = line.strip_prefix("rule ") else { return (0, line) };
    let (number, line) = given.split_once(' ').expect("a number and a line");
    (number.parse().expect("a number"), line)
}

pub fn set_hex(n: usize, lines: &str) -> String {
    hex(&set(n, lines))
}

/// A is 0 ≤ x ≤ 2186.
pub fn a() -> Vec<u8> {
    set(1, "basic; ge 0 1; ge 2186 -1")
}

/// The same part of a set a number of times.
pub fn times(count: usize, lines: &str) -> String {
    vec![lines; count].join(";")
}

/// Coordinates filled up with zeros, as fields of a line.
pub fn eight(x: &[i32]) -> String {
    let words: Vec<String> = (0..8)
        .map(|i| x.get(i).copied().unwrap_or(0).to_string())
        .collect();
    words.join(" ")
}

pub fn call(line: String) -> String {
    run_call(&line)
}

pub fn check(n: u8, bytes: &[u8]) -> String {
    call(format!("check {n} {}", hex(bytes)))
}

pub fn member(n: u8, bytes: &[u8], x: &[i32]) -> String {
    call(format!("member {n} {} {}", hex(bytes), eight(x)))
}

pub fn fleet(n: u8, bytes: &[u8], coordinates: &[i32]) -> String {
    let words = coordinates.iter().map(|x| format!(" {x}")).collect::<String>();
    call(format!("fleet {n} {}{words}", hex(bytes)))
}

pub fn search(n: u8, bytes: &[u8], limit: u32, low: &[i32], high: &[i32]) -> String {
    let (set, low, high) = (hex(bytes), eight(low), eight(high));
    call(format!("search {n} {set} {limit} {low} {high}"))
}

pub fn count(n: u8, bytes: &[u8], limit: u32, low: &[i32], high: &[i32]) -> String {
    let (set, low, high) = (hex(bytes), eight(low), eight(high));
    call(format!("count {n} {set} {limit} {low} {high}"))
}

pub fn counts(n: u8, bytes: &[u8], limit: u32, axis: u64, low: &[i32], high: &[i32]) -> String {
    let (set, low, high) = (hex(bytes), eight(low), eight(high));
    call(format!("counts {n} {set} {limit} {axis} {low} {high}"))
}

/// The range of a box, with limits for the search of the set and that of the difference; the answer without the table's
/// bytes.
pub fn range(n: u8, room: usize, bytes: &[u8], limits: [u32; 2], low: &[i32], high: &[i32]) -> String {
    let (set, [first, then], low, high) = (hex(bytes), limits, eight(low), eight(high));
    let whole = call(format!("range {n} {room} {set} {first} {then} {low} {high}"));
    whole.rsplit_once(' ').expect("a table").0.to_string()
}

/// Greatest or least of basic set k: the constant, then coefficients of axes and of divisions.
pub fn extreme(kind: &str, n: u8, bytes: &[u8], k: u64, expression: (i32, &[i32], &[i32])) -> String {
    let (constant, axes, divisions) = expression;
    call(format!("{kind} {n} {} {k} {constant} {} {}", hex(bytes), eight(axes), eight(divisions)))
}

/// The line of a walk of named states: `start N` with division lines behind `/`, `add` with a rule's line, `mark K`,
/// `back K`, with `;` between them. A rule is written over the axes and divisions of the last start with 1 to 8 axes;
/// `rule M` may stand before it.
pub fn walk_line(steps: &str) -> String {
    let (mut n, mut divisions) = (1, String::new());
    let basic = |n: usize, lines: &str| read_basic(n, lines).expect("listing lines");
    let commands = |n: usize, basic: BasicSet| hex(&encode(&Set { n, basics: vec![basic] })[1..]);
    let mut line = |step: &str| match step.trim().split_once(' ').expect("a step") {
        ("start", given) => {
            let (axes, lines) = given.split_once('/').unwrap_or((given, ""));
            let axes: usize = axes.trim().parse().expect("axes");
            if (1..=8).contains(&axes) {
                (n, divisions) = (axes, lines.replace('/', "\n"));
            }
            format!("start {axes} {}", commands(n, basic(n, &divisions)))
        }
        ("add", rule) => {
            let (number, line) = numbered(rule);
            let mut rules = basic(n, &format!("{divisions}\n{line}")).rules;
            rules.iter_mut().for_each(|rule| rule.number = number);
            format!("add {}", commands(n, BasicSet { divisions: Vec::new(), rules }))
        }
        _ => step.trim().to_string(),
    };
    let lines: Vec<String> = steps.split(';').map(&mut line).collect();
    format!("states {}", lines.join(" ; "))
}

pub fn walk(steps: &str) -> String {
    call(walk_line(steps))
}

pub fn tested(n: u8, bytes: &[u8]) -> String {
    call(format!("test {n} {} 1", hex(bytes)))
}

/// An operation with two sets; the answer without the table's bytes.
pub fn short(name: &str, n: u8, room: usize, first: &[u8], second: &[u8]) -> String {
    let whole = call(format!("{name} {n} {room} {} {}", hex(first), hex(second)));
    whole.rsplit_once(' ').expect("a table").0.to_string()
}

/// A script, command by command.
pub struct Script(pub Vec<u8>);

impl Script {
    pub fn new(n: u8) -> Script {
        Script(vec![0x10, n])
    }

    pub fn raw(mut self, bytes: &[u8]) -> Script {
        self.0.extend(bytes);
        self
    }

    pub fn load(self, number: u8, bytes: &[u8]) -> Script {
        let length = (bytes.len() as u16).to_le_bytes();
        self.raw(&[0x40, number]).raw(&length).raw(bytes)
    }

    pub fn numbers(self, numbers: &[i32]) -> Script {
        (0..8).fold(self, |script, i| {
            let x = numbers.get(i).copied().unwrap_or(0);
            script.raw(&x.to_le_bytes())
        })
    }

    pub fn member(self, number: u8, x: &[i32]) -> Script {
        self.raw(&[0x46, number]).numbers(x)
    }

    pub fn search(self, number: u8, limit: u32, low: &[i32], high: &[i32]) -> Script {
        let opened = self.raw(&[0x47, number]).raw(&limit.to_le_bytes());
        opened.numbers(low).numbers(high)
    }

    /// Runs without a closing `00`.
    pub fn run(self) -> String {
        String::from_utf8(run_script(&self.0)).expect("text")
    }

    /// Runs with it.
    pub fn end(self) -> String {
        self.raw(&[0]).run()
    }
}
