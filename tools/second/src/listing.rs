//! Listing lines of "The script program": writing, and reading them back
//! (for tests and for files of sets such as hard-sets.txt).

use std::fmt::Write;

use crate::model::{BasicSet, Division, Kind, Rule, Set};

/// `set k has m`, then each basic set; every line ends in a newline.
pub fn list_set(number: u8, set: &Set) -> String {
    let mut out = format!("set {number} has {}\n", set.basics.len());
    for (index, basic) in set.basics.iter().enumerate() {
        out.push_str(&format!("basic {}\n", index + 1));
        out.push_str(&list_basic(set.n, basic));
    }
    out
}

/// The division lines, then the rule lines.
pub fn list_basic(n: usize, basic: &BasicSet) -> String {
    let mut out = String::new();
    for division in &basic.divisions {
        let head = format!("div {} {}", division.d, division.c);
        push_line(&mut out, &head, division.axes[..n].iter());
    }
    for rule in &basic.rules {
        let word = match rule.kind {
            Kind::Equality => "eq",
            Kind::Inequality => "ge",
        };
        let head = format!("{word} {}", rule.constant);
        let divs = &rule.divs[..basic.divisions.len()];
        push_line(&mut out, &head, rule.axes[..n].iter().chain(divs));
    }
    out
}

fn push_line<'a>(out: &mut String, head: &str, numbers: impl Iterator<Item = &'a i64>) {
    out.push_str(head);
    for number in numbers {
        // Writing to a string never fails.
        let _ = write!(out, " {number}");
    }
    out.push('\n');
}

/// A basic set from its `div`, `ge` and `eq` lines; None where a line is not
/// one of these or has not the numbers it should have.
pub fn read_basic(n: usize, lines: &str) -> Option<BasicSet> {
    let mut basic = BasicSet::default();
    for line in lines.lines().filter(|line| !line.trim().is_empty()) {
        let (word, numbers) = split_line(line)?;
        match word {
            "div" => basic.divisions.push(read_division(n, &numbers)?),
            "ge" => basic.rules.push(read_rule(n, &basic, Kind::Inequality, &numbers)?),
            "eq" => basic.rules.push(read_rule(n, &basic, Kind::Equality, &numbers)?),
            _ => return None,
        }
    }
    Some(basic)
}

/// A set whose basic sets each open with a line that begins with `basic`.
pub fn read_set(n: usize, lines: &str) -> Option<Set> {
    let mut bodies: Vec<String> = Vec::new();
    for line in lines.lines().filter(|line| !line.trim().is_empty()) {
        if line.trim_start().starts_with("basic") {
            bodies.push(String::new());
        } else {
            let body = bodies.last_mut()?;
            body.push_str(line);
            body.push('\n');
        }
    }
    let basics: Option<Vec<BasicSet>> =
        bodies.iter().map(|body| read_basic(n, body)).collect();
    Some(Set { n, basics: basics? })
}

fn split_line(line: &str) -> Option<(&str, Vec<i64>)> {
    let mut fields = line.split_whitespace();
    let word = fields.next()?;
    let numbers: Option<Vec<i64>> = fields.map(|field| field.parse().ok()).collect();
    Some((word, numbers?))
}

fn padded(numbers: &[i64]) -> Option<[i64; 8]> {
    let mut places = [0; 8];
    places.get_mut(..numbers.len())?.copy_from_slice(numbers);
    Some(places)
}

fn read_division(n: usize, numbers: &[i64]) -> Option<Division> {
    if numbers.len() != 2 + n {
        return None;
    }
    Some(Division { d: numbers[0], c: numbers[1], axes: padded(&numbers[2..])? })
}

fn read_rule(n: usize, basic: &BasicSet, kind: Kind, numbers: &[i64]) -> Option<Rule> {
    if numbers.len() != 1 + n + basic.divisions.len() {
        return None;
    }
    Some(Rule {
        kind,
        // "Listings omit it."
        number: 0,
        constant: numbers[0],
        axes: padded(&numbers[1..1 + n])?,
        divs: padded(&numbers[1 + n..])?,
    })
}
